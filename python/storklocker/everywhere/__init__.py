"""Guards every load of this interpreter, in every library.

    import storklocker

    storklocker.install(guard)          # at the start of the program

    with storklocker.trusted():         # pickles that the program wrote itself
        state = pickle.load(file)

There are two lines of defence. Names: the guard replaces `pickle.load`, `loads`, `Unpickler` and
their variants, so that it checks a whole pickle before it loads any of it. Imports: a reader that
bypasses these names raises an audit event at each import, and an import off the list raises
`Unlisted`. By then, the pickle's earlier calls have run.

docs/EVERYWHERE.md lists what each line covers, and what neither covers.
"""

from .installing import Installed, install, installed
from .trust import Unlisted, trusted

__all__ = ["Installed", "Unlisted", "install", "installed", "trusted"]
