"""A shell over a journal: `python3 -m rx JOURNAL`.

main reads words and statements, statements reads what is typed, commands does it, tables shows what
comes, transfer moves files, progress tells how far they are, and prompt has history and completion.
"""
