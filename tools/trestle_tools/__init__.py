"""What the commands in bin share: scripts and the words of their grammar, the program's outputs, pictures.

Python 3.8 and its standard library. Each module begins with what it is for:

    program      runs the program trestle on a script
    outputs      takes an output apart: dumps, journals, the lines of check, refusals
    pictures     dumps in colours: in the terminal, as .png and as .ppm files
    comparison   what differs between two outputs
    results      what came of stored outputs, as a page and as JUnit's XML
    terminal     whether a terminal gets colours, and how wide it is
    kinds        what bytes are that are no text
    scripts      takes a script apart: lines, words, and the place of each word
    include      expands `# include FILE`
    grammar      the lines that a script may have, with the ranges of their values
    places       where each window is, by the rules of the layouts
    visible      what is seen of the windows, and why nothing of one is
    windows      the names, the tree and the widgets of a script, as far as its lines say
    contents     what a widget holds, as far as is needed to see that a command changes nothing
    causes       why a line is refused
    elsewhere    words of other tools, and what to write instead
    instruments  copies of a script that play as it does, with reports of their own
    bad          which points of the screen are bad
    steps        what is bad, waits and is stale after each step, and why
    answers      what an answer of the journal means, and what to do
    looks        what dumps show, and what nobody sees
    orders       steps whose order may show where threads play a script
    findings     what is legal in a script and yet hardly meant
    stream_reader  reads a stream of `mirror`: one file, to copy
    streams      writes streams; their screens as dumps
    traces       a script step by step: answers, events, screens, places and numbers; two of them side by side
    pages        traces as one page of HTML, by the template page.html
    recordings   a script that is written while it is played
    serving      serves the page of a recording on the loopback
    rfb          serves the cuts of a stream to VNC viewers
    commands     one module for each command in bin
"""
