"""Random programs of the language of docs/LANGUAGE.md, as texts.

    expressions     expressions over declared names
    programs        declarations, statements and loops
    writing         statements as a text, plainly or freely, and texts with something wrong

What is drawn is accepted. It is drawn with a leaning, so that races and each kind of fault come up."""
