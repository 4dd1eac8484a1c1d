"""Finds the pickles in files, lists what they would import, and points out what is dangerous.

    report.py       the report on a file or a member
    readings.py     what the readers that people use would get to; all_readings.py lists them
    marks.py        by what a file shows which of them have to be asked
    pickles.py, npys.py, tars.py, packed.py, zips.py, zip_layout.py, checkpoints.py, stores.py and
    shelves.py      the rule of each reader
    sqlite_files.py, sqlite_pages.py, sqlite_values.py, value_letters.py and value_packing.py
                    values of SQLite: as its pages have them, as SQL makes them, packed ones
    values.py       plain values of a store, which are told together
    kinds.py        stores that are looked through, and records
    recognized.py   what files are that hold no pickle
    unpacking.py, archives.py
                    streams and zip files of strangers, which adapters unpack too
    trails.py       pickles in stores, from the middle on
    places.py, beside.py, checkpoint_places.py
                    the file beside another that says where its values are
    source.py       bytes that several readers look at
    budget.py       how much is read of one file
    judging.py      makes the report on each pickle
    rows.py         reads pickles that follow one another
    names.py        the imports of a pickle, within bounds
    following.py    the instructions of a pickle, without running them
    joblib_files.py, joblib_cutting.py and joblib_types.py
                    files of joblib without their arrays
    spelled.py, lenient.py and reaching.py
                    what the most lenient reader imports, also behind what the checker refuses
    listing.py      the instructions around a refusal
    condensing.py   keeps the reports on one file within bounds
    file.py, one_file.py and scan.py
                    a file, its reports, and many files, in several processes
    remote.py, over_http.py, ranges.py and lacking.py
                    objects at URLs, each byte of which is fetched once
    queues.py, redis_values.py, amqp_messages.py, kafka_messages.py
                    values of stores and queues elsewhere
    pacing.py       files at a bounded rate, and those that are added
    choosing.py     which files of a folder are scanned
    severity.py     the kinds of findings, how bad each is, and what to do about it
    dangers.py      what is known of names; known.py reads the table known.txt
    formats.py      reports as a table and as JSON
    sarif.py, junit.py, html.py and page.py
                    reports in other formats
    summary.py      what a whole scan found
    listed.py       the lists that commands are given
    learning.py     writes list files from trusted files
    command.py      the command line
"""
