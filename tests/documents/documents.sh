# Tests that the documents show what the program prints, name what exists, and aren't too long; and that the lists of
# port operations, of their lines, of modes and of reserved words are complete, in the sources too.
documents() {
    at_least 71 told "$room/shown" tests/documents/shown.py "$tpr"
    at_least 19 told "$room/document_names" tests/documents/document_names.py
    at_least 82 told "$room/word_lists" tests/documents/word_lists.py
}

# Tests the style of the documents and the sources.
style() {
    told "$room/style" tests/documents/document_style.py
}
