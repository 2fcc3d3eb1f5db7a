"""What is written: definitions, messages and files of values, and changed files."""
