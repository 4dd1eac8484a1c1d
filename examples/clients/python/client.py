"""Asks `storklocker serve` about the bytes on standard input: client.py URL

Status 0 is a yes, 1 a no. Whatever else happens ends with 2: without a verdict nothing is loaded.
"""

import json
import os
import sys
import time
import urllib.error
import urllib.request

TRIES, SECONDS = 4, 35


def accepted(url, data):
    """Whether the daemon says yes. Raises OSError where it gives no verdict."""
    headers = {"Content-Type": "application/octet-stream"}
    if "STORKLOCKER_TOKEN" in os.environ:
        headers["Authorization"] = f"Bearer {os.environ['STORKLOCKER_TOKEN']}"
    for wait in (2**number / 10 for number in range(TRIES)):
        try:
            request = urllib.request.Request(url, data, headers, method="POST")
            with urllib.request.urlopen(request, timeout=SECONDS) as answer:
                if answer.status == 200 and json.loads(answer.read())["accepted"] is True:
                    return True
                raise OSError("an answer that isn't one")
        except urllib.error.HTTPError as error:
            if error.code == 422 and json.loads(error.read())["accepted"] is False:
                return False
            if error.code != 503:
                raise
            why = error
        except (ConnectionError, urllib.error.URLError) as error:
            why = error
        time.sleep(wait)
    raise why


def main():
    try:
        is_yes = accepted(sys.argv[1], sys.stdin.buffer.read())
    except Exception as error:
        print(f"no verdict: {error}")
        return 2
    print("yes" if is_yes else "no")
    return 0 if is_yes else 1


if __name__ == "__main__":
    sys.exit(main())
