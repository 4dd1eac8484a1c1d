"""The command `storklocker judge`: calls the names of a module as hostile pickles may, and says
what it saw. The modules, each of which has one concern:

    shapes.py    what a pickle can make for an argument; objects.py: objects that tell what is done
    forms.py     the ways in which a pickle hands it to a name
    states.py    the states that a class may read
    cases.py     the pickles for a name, and what is done with what they make
    watch.py     what counts as harm, and what is refused
    children.py  the processes in which they are loaded, and their limits
    before.py    what was there before
    derived.py   classes whose methods are all those of built-in classes
    judged.py    what was tried of a name, and seen
    command.py   the command, and its report
"""
