"""The table of a ride in pandas: pandas_table.py FILE. The library writes the table as CSV text, which pandas reads as it is."""
import io
import sys

import gazhdor
import pandas

if len(sys.argv) != 2:
    sys.exit("usage: pandas_table.py FILE")
table = pandas.read_csv(io.StringIO(gazhdor.table_text(sys.argv[1])), parse_dates=["timestamp"])
print(table.dtypes.to_string())
print(table[["altitude", "speed", "heart_rate"]].describe().loc[["count", "mean", "max"]].to_string())
