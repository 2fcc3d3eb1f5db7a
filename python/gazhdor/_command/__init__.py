"""The command gazhdor, which is also python3 -m gazhdor."""
