"""The page and the service: a Flask application over the commands, on 127.0.0.1 alone.

`guard` lets in who has the token; `app` has the addresses; `jobs` runs what is asked on a pool of processes, each a `worker`;
`answers` is the one module that calls the rest of `sefwllon`; `trace` is where the steps of a run come from; `serving` starts and
ends it all. The page itself is in `static`: plain modules and a style sheet, without a build.
"""
