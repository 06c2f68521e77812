"""Why a row of the target is there, and what became of a row of the source.

    Reasons.of_folder(folder)            the reasons of a folder with mapping.clio, its files and out/ (reasons.py)
    reasons.row(set, values)             why a row of the target is there: a RowReason
    reasons.source_row(set, number)      what became of a row of the source: a SourceReason
    data.py                              what these are: the reasons as data
    words.py                             the same as text, and `as_json`

Nothing reads the current folder, so that a process can answer for several."""
