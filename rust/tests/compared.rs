//! What is edited, joined, mended, made whole, made of samples and as GPX: byte for byte as the module of Python makes it. GAZHDOR_COMPARED names
//! the folder that compared.py filled; without it this is left out.
use gazhdor::{activity, gpx, join, join_as_one, mend, mend_whole, Edit, Samples, Time};
use std::collections::BTreeMap;
use std::fs;
use std::path::{Path, PathBuf};

/// A call: its name, its inputs, its options, and the file that it made.
struct Call<'t> {
    name: &'t str,
    inputs: Vec<&'t str>,
    made: Option<&'t str>,
    options: BTreeMap<&'t str, &'t str>,
}

impl<'t> Call<'t> {
    fn of(line: &'t str) -> Call<'t> {
        let mut cells = line.split('\t');
        let mut next = || cells.next().unwrap();
        let (name, inputs, made) = (next(), next().split(',').collect(), Some(next()).filter(|made| !made.is_empty()));
        Call { name, inputs, made, options: cells.map(|word| word.split_once('=').unwrap()).collect() }
    }

    fn is(&self, option: &str) -> bool {
        self.options.contains_key(option)
    }

    /// What this makes of the same; none where there is a fault.
    fn own(&self, folder: &Path) -> Option<Vec<u8>> {
        let files: Vec<_> = self.inputs.iter().map(|name| fs::read(folder.join(name)).unwrap()).collect();
        match self.name {
            "edit" => self.edit().write(&files[0], Vec::new()).ok().map(|made| made.0),
            "join" if self.is("one") => join_as_one(&files, Vec::new()).ok(),
            "join" => join(&files, Vec::new()).ok(),
            "mend" if self.is("whole") => mend_whole(&files[0]).ok(),
            "mend" => mend(&files[0]).ok(),
            "gpx" if self.is("partial") => Some(gpx(&files[0]).unwrap_or_else(|stopped| stopped.before).into()),
            "gpx" => gpx(&files[0]).ok().map(String::into_bytes),
            "activity" => self.activity(std::str::from_utf8(&files[0]).unwrap()),
            other => panic!("no call {other}"),
        }
    }

    fn edit(&self) -> Edit {
        let number = |of: &str| of.parse::<i64>().unwrap();
        let time = |of: &str| Time::new(of.parse().unwrap());
        self.options.iter().fold(Edit::new(), |edit, (&option, &value)| match option {
            "drop" => value.split(',').fold(edit, Edit::drop),
            "shift" => edit.shift(number(value)),
            "begin" => edit.from(time(value)),
            "end" => edit.to(time(value)),
            other => panic!("no option {other}"),
        })
    }

    fn activity(&self, text: &str) -> Option<Vec<u8>> {
        let column = |line: &'static str| {
            let (field, values) = line.split_once('\t').unwrap();
            (field, Samples::of(values.split('\t').map(|value| value.parse::<i64>().ok())))
        };
        let lines: Vec<&'static str> =
            text.lines().map(|line| &*Box::leak(line.to_string().into_boxed_str())).collect();
        activity(lines.into_iter().map(column), self.options["sport"]).ok()
    }
}

fn folder() -> Option<PathBuf> {
    std::env::var_os("GAZHDOR_COMPARED").map(PathBuf::from)
}

#[test]
fn as_python_makes_it() {
    let folder = match folder() {
        Some(folder) => folder,
        None => return println!("GAZHDOR_COMPARED isn't set, so nothing is compared with Python"),
    };
    let text = fs::read_to_string(folder.join("compared.tsv")).unwrap();
    let mut counts = BTreeMap::new();
    for line in text.lines() {
        let call = Call::of(line);
        let made = call.made.map(|made| fs::read(folder.join(made)).unwrap());
        assert!(call.own(&folder) == made, "{line}");
        *counts.entry((call.name, made.is_some())).or_insert(0) += 1;
    }
    for (name, least) in [("edit", 150), ("join", 50), ("mend", 20), ("gpx", 20), ("activity", 12)] {
        assert!(counts.get(&(name, true)) >= Some(&least), "{name}: {counts:?}");
    }
}
