"""The daemon `storklocker serve`: verdicts over HTTP and clamd's protocol.

    routes       what may be asked over HTTP, and `openapi.json`, which is made of it
    settings     the options, and the limits that they set
    lists        the lists by name, and reading them again
    workers      the processes that read what strangers send: those of `scanning.isolated`
    bodies       the bytes of a request, which are held outside of this process's heap
    desk         one way from bytes to an answer, which both protocols take
    exporting    what commands print, in a process of their own
    connections  how many there are, and how long each may wait
    over_http    the server for HTTP, by aiohttp
    over_clamd   the server for clamd's protocol
    listening    the sockets
    daemon       starting, signals, stopping
"""
