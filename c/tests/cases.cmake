# The cases, each of which ctest runs and names. Their command lines run in the folder of the programs and files, in which TREE is the tree,
# whose `fit` is found, and LIB the folder of the library.
set(environment LC_ALL=C.UTF-8 "PATH=${tree}:$ENV{PATH}" "TREE=${tree}" "LIB=${lib}" "LD_LIBRARY_PATH=${lib}" "PKG_CONFIG_PATH=${lib}")

# A case of the script see, by its name: quiet(NAME LINE), says(NAME TEXT LINE), same(NAME LINE LINE)
function(quiet name line)
    add_test(NAME ${name} COMMAND ${here}/see quiet "${line}")
    set_tests_properties(${name} PROPERTIES ENVIRONMENT "${environment}")
endfunction()
function(says name text line)
    add_test(NAME ${name} COMMAND ${here}/see says "${text}" "${line}")
    set_tests_properties(${name} PROPERTIES ENVIRONMENT "${environment}")
endfunction()
function(same name wanted line)
    add_test(NAME ${name} COMMAND ${here}/see same "${wanted}" "${line}")
    set_tests_properties(${name} PROPERTIES ENVIRONMENT "${environment}")
endfunction()

# followed(NAME NAME..): the first case makes what the others look at
function(followed name)
    string(MAKE_C_IDENTIFIER ${name} fixture)
    set_tests_properties(${name} PROPERTIES FIXTURES_SETUP ${fixture})
    foreach(other IN LISTS ARGN)
        if(TEST ${other})
            set_tests_properties(${other} PROPERTIES FIXTURES_REQUIRED ${fixture})
        endif()
    endforeach()
endfunction()

list(JOIN files " " all_files)
list(JOIN known " " known)

# ---- the library

set(calls check close feed finish free from_csv from_messages messages open reason_name show status_name table to_csv version)
list(APPEND calls writer_close writer_definition writer_file writer_finish writer_messages writer_open)
list(APPEND calls amount developer field_at first first_field float forget items keep message_name name_at named next next_field numbered raw
    string value)
list(TRANSFORM calls PREPEND gazhdor_)
list(SORT calls)
list(JOIN calls "\n" calls)
set(names [[ | grep -E ' [A-TV-Z] ' | cut -d ' ' -f 3 | sort]])
says("the names in libgazhdor.so" "${calls}" "nm -D --defined-only \"$LIB/libgazhdor.so\"${names}")
says("the names in libgazhdor.a" "${calls}" "nm -g --defined-only \"$LIB/libgazhdor.a\"${names}")
says("the name that a program asks for" "libgazhdor.so.${calls_version}" [[objdump -p "$LIB/libgazhdor.so" | sed -n 's/ *SONAME *//p']])
says("the version of the file" "libgazhdor.so.${version}" [[readlink -f "$LIB/libgazhdor.so" | sed 's|.*/||']])
says("the libraries that it needs" libc.so.6 [[objdump -p "$LIB/libgazhdor.so" | sed -n 's/ *NEEDED *//p']])
set(oldest GLIBC_2.17)
if(CMAKE_SYSTEM_PROCESSOR STREQUAL x86_64)
    set(oldest GLIBC_2.14)
endif()
says("the C library that it needs at least" ${oldest} [[objdump -T "$LIB/libgazhdor.so" | grep -o 'GLIBC_[0-9.]*' | sort -uV | tail -n 1]])
says("what libgazhdor.a leaves to be linked" "free malloc memchr memcpy memmove memset realloc strcmp strlen" [[nm -u "$LIB/libgazhdor.a" | sed -n 's/^ *U //p' | sort | xargs]])
says("words that c/build does not know" 2 [["$TREE/c/build" --help >/dev/null 2>&1; echo $?]])

# ---- the header

set(compile "-Wall -Wextra -pedantic -Werror -I\"$TREE/c\" -c")
foreach(standard c99 c11 c17)
    quiet("the header as ${standard}" "'${CMAKE_C_COMPILER}' -std=${standard} ${compile} \"$TREE/c/tests/header.c\" -o header-${standard}.o")
endforeach()
has(CXX "the header isn't tried as C++" $ENV{CXX} c++)
has(CLANGXX "no other compiler tries it as C++" clang++)
# Another compiler warns of other things: what C++ has its own words for is written in them.
set(modern "-Wold-style-cast -Wzero-as-null-pointer-constant -Wno-long-long -x c++")
foreach(compiler CXX CLANGXX)
    foreach(standard c++98 c++11 c++17)
        if(${compiler})
            set(by "${standard} by ${${compiler}}")
            quiet("the header as ${by}" "'${${compiler}}' -std=${standard} ${modern} ${compile} \"$TREE/c/tests/header.c\" -o ${compiler}-${standard}.o")
        endif()
    endforeach()
endforeach()
foreach(name demo messages pieces write edit)
    if(CXX)
        quiet("c/${name}.c as C++" "'${CXX}' -std=c++17 -x c++ ${compile} \"$TREE/c/${name}.c\" -o ${name}.o")
    endif()
endforeach()
same("the numbers of the messages" [[tail -n +2 "$TREE/profile/fields.tsv" | cut -f 1,2 | awk '{ print toupper($2), $1 }' | sort -u]]
    [[sed -n 's/^ *GAZHDOR_MESSAGE_\([A-Z_]*\) = \([0-9]*\),\?$/\1 \2/p' "$TREE/c/gazhdor_numbers.h" | sort]])
says("how many messages have a number" 12 [[grep -c '^ *GAZHDOR_MESSAGE_[A-Z_]* = [0-9]*,\?$' "$TREE/c/gazhdor_numbers.h"]])

# ---- the demo, with the library in it and beside it

set(demo_says [[echo 'good, 1 file(s)' && fit table ride.fit | head -n 3]])
same("what the demo says" "${demo_says}" "./demo ride.fit")
says("what the demo says of a file that is not there" "cannot read none.fit" "./demo none.fit")
# The names of the reasons are those that the program prints. A chain of 16,777,216 files is left out.
function(reason name hex)
    add_test(NAME "the reason ${name}" COMMAND ${here}/see reason ${name} ${hex})
    set_tests_properties("the reason ${name}" PROPERTIES ENVIRONMENT "${environment}")
endfunction()
set(head "0E 20 00 00 07 00 00 00 2E 46 49 54 00 00")
reason(HeaderSize "0D")
reason(Protocol "0E 30")
reason(NoFit "0E 20 00 00 03 00 00 00")
reason(Signature "0E 21 00 00 00 00 00 00 2F")
reason(HeaderSum "0E 20 00 00 00 00 00 00 2E 46 49 54 01")
reason(ReservedBit "${head} 50")
reason(UndefinedLocal "${head} 00")
reason(Architecture "${head} 40 00 02")
reason(Overrun "${head} 40 00 00 14 00 05")
reason(FileSum "0E 20 00 00 00 00 00 00 2E 46 49 54 00 00 01")
has(PKG_CONFIG "gazhdor.pc isn't tried" pkg-config)
set(shared "-Wall -Wextra -pedantic -Werror \"$TREE/c/demo.c\" -o demo_shared")
if(PKG_CONFIG)
    quiet("the demo is compiled with the shared library" "pkg-config --cflags --libs gazhdor | xargs '${CMAKE_C_COMPILER}' -std=c11 -O2 ${shared}")
    says("the version that pkg-config says" ${version} "pkg-config --modversion gazhdor")
else()
    quiet("the demo is compiled with the shared library" "'${CMAKE_C_COMPILER}' -std=c11 -O2 ${shared} -I\"$TREE/c\" -L\"$LIB\" -lgazhdor")
endif()
same("what the demo with the shared library says" "${demo_says}" "./demo_shared ride.fit")
followed("the demo is compiled with the shared library" "what the demo with the shared library says")

# ---- the calls

quiet("the calls" "./calls ride.fit said-ride 1")
# Its text is longer than what is put at once.
quiet("the calls on 20 KB, each growth of memory refused" "./calls 20k.fit said-20k 0")
if(VALGRIND)
    set(valgrind "valgrind -q --error-exitcode=9 --leak-check=full --show-leak-kinds=all")
    quiet("the calls under valgrind" "${valgrind} ./calls ride.fit said-ride 200")
    quiet("pieces under valgrind" "${valgrind} ./pieces_plain 7 known/message.fit known/orders.fit known/developer.fit")
endif()
quiet("a stack of 64 KiB suffices" "./stack ${all_files}")

# ---- messages. The rows of `fit to-csv`, and the table without positions, are made again from the blocks: of the ride, of recordings of each
# kind, and of a chain with both architectures, arrays, texts, absent values, developer fields and counters.

foreach(kind IN LISTS kinds)
    same("rows of ${kind}" "fit to-csv ${kind}.fit" "./rows csv ${kind}.fit")
    same("table of ${kind}" "fit table ${kind}.fit | cut -d , -f 1,2,5-" "./rows table ${kind}.fit")
endforeach()
foreach(kind ride mixed strings)
    quiet("blocks, and changed ones of ${kind}" "${under}./blocks ${kind}.fit ${rounds}")
endforeach()
quiet("blocks by the functions of the library" "./blocks_of_library ride.fit 200")
same("rows by the functions of the library" "fit to-csv mixed.fit" "./rows_of_library csv mixed.fit")
same("table by the functions of the library" "fit table mixed.fit | cut -d , -f 1,2,5-" "./rows_of_library table mixed.fit")
says("messages with a developer field" "1000000000  101 bpm  1767 watts\nsession  6083.55 m" [[./messages developer.fit 'Form power' | sed -n '1p;$p']])
says("messages with a float" "1000000000  101 bpm  602.688 N/m\nsession  6083.55 m" [[./messages developer.fit Strain | sed -n '1p;$p']])
quiet("floats that the profile does not scale" ./floats)

# ---- files from values, and changed ones

quiet("blocks that are made" "${under}./writes")
math(EXPR fewer "${rounds} / 5")
foreach(kind ride mixed developer compressed strings)
    quiet("blocks that are copied and changed of ${kind}" "${under}./rewrites ${kind}.fit ${fewer}")
endforeach()
quiet("blocks that a writer puts" "./writers 300 ${known} ${all_files}")
has(PYTHON3 "no values are worked out" python3)
quiet("the demo writes a ride" "./write written.fit")
if(PYTHON3)
    quiet("values" [["$TREE/c/tests/steps.py" | ./steps $(tail -n +2 "$TREE/profile/fields.tsv" | cut -f 6,7 | sort -u)]])
    quiet("the bytes of that ride" [["$TREE/c/tests/written.py" wanted.fit && cmp wanted.fit written.fit]])
endif()
has(GPSBABEL "no other program has read what is written" gpsbabel)
if(GPSBABEL)
    # Latitude, longitude, altitude, time and heart rate, as another program reads them; positions to the nearest millionth of a degree.
    says("that ride as gpsbabel reads it" "47.300000 8.568000 408.0 2026/05/17 07:30:00 101
47.300719 8.567983 409.2 2026/05/17 07:30:05 103
47.301400 8.567900 410.4 2026/05/17 07:30:10 \n47.302071 8.567774 411.2 2026/05/17 07:30:15 108"
        [[gpsbabel -t -i garmin_fit -f written.fit -o unicsv,utc=0 -F - | tr -d '\r' | awk -F , 'NR == 1 { for (i = 1; i <= NF; i++) at[$i] = i; next }
            { printf "%.6f %.6f %s %s %s %s\n", $at["Latitude"], $at["Longitude"], $at["Altitude"], $at["Date"], $at["Time"], $at["Heartrate"] }']])
endif()
followed("the demo writes a ride" "the bytes of that ride" "that ride as gpsbabel reads it")
quiet("the demo writes a ride without places" "./edit ride.fit edited.fit")
# It has 292 positions of four bytes, none of which is one of "no value", and the closing checksum has two.
same("that ride without places" [[fit show ride.fit | sed -E 's/(position_[a-z]+)=-?[0-9]+ semicircles/\1=/g']] "fit show edited.fit")
says("the bytes that are other ones" 1170 "cmp -l ride.fit edited.fit | wc -l")
followed("the demo writes a ride without places" "that ride without places" "the bytes that are other ones")
says("a file that the demo cannot read" "cannot read none\n4" "./edit none none.fit; echo $?")
says("a file that is cut" "truncated\n1" "head -c 1000 ride.fit >cut.fit; ./edit cut.fit none.fit; echo $?")
says("a file that cannot be written" "cannot write /dev/full\n4" "./write /dev/full; echo $?")

# ---- bytes that come in pieces. Under the compiler's checks, or under valgrind, a use of a block that was freed is seen too.

quiet("known files in pieces" "./pieces 1 ${known}")
quiet("the ride and mixed fields in pieces" "./pieces 61 ride.fit mixed.fit")
quiet("pieces of 20 KB, each growth of memory refused" "./pieces 0 20k.fit")
foreach(kind IN LISTS recorded)
    quiet("what a stream keeps of ${kind}" "./held long-${kind}.fit")
endforeach()
quiet("what a stream keeps of 2 MB" "./held 2m.fit")
quiet("no byte of a message that was handed out" ./handed_out)
foreach(kind ride mixed plain developer strings)
    # The last line of `fit show` says what was found.
    same("show of ${kind} in pieces" "fit show ${kind}.fit | sed '$d'" "./fed show <${kind}.fit")
    foreach(command table to-csv)
        same("${command} of ${kind} in pieces" "fit ${command} ${kind}.fit" "./fed ${command} <${kind}.fit")
    endforeach()
endforeach()
same("heart rates in pieces" [[./messages developer.fit heart_rate | awk '$2 != "-" && $1 != "session" { print $1, "record", $2, $3 }'; echo 0]]
    "./fed messages <developer.fit; echo $?")
says("a check in pieces" "ok, 1 file(s)\n0" "./fed check <plain.fit; echo $?")
says("a front in pieces" "truncated at byte 20000\n1" "head -c 20000 plain.fit | ./fed check; echo $?")
says("the table of a front in pieces" "truncated at byte 20000\n1" "head -c 20000 plain.fit | ./fed table >table_of_front; echo $?")
same("what comes before the end" "head -c 20000 plain.fit | fit table 2>/dev/null" "head -c 20000 plain.fit | ./fed table 2>/dev/null")
says("words that the demo does not know" "usage: pieces check|show|table|to-csv|messages <FILE\n2" "./fed rows </dev/null; echo $?")
says("a full disk" "write fault\n4" "./fed show <ride.fit >/dev/full; echo $?")
says("a read that fails" "read fault\n4" "./fed check <.; echo $?")

# ---- blocks that are wrong, back to bytes, and huge ones. huge_blocks.c has also a chain and data of the greatest length, by hand: they take
# 1.5 and 12 GB.

quiet("blocks with changes, back to bytes" "./mutants 100000 ${known} ${all_files}")
quiet("blocks of the greatest length" "./huge_blocks far")
quiet("the memory of the way back" "./peak ${all_files}")
