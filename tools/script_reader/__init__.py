"""The way in for a person: a Lua script's text to records, the proved programs' answers to words.

Nothing in this package is proved. The verdict is the proved program's; the lexer before it and the words after it are ordinary Python.
"""
