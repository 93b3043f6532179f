"""A second reading of the language of docs/LANGUAGE.md, by docs/RULES.md and docs/DEFINITIONS.md. It shares
nothing with the proved code, so a program on which the two differ shows a mistake in one of them.

    source      the statements of a text in the free source form
    tokens      the tokens of a statement
    syntax      the trees of statements and expressions
    parsing     tokens to trees
    numbers     kinds, wrapping, and the operations
    values      expressions whose names and sorts are known, and what they evaluate to
    naming      declared names, constants, and the expressions of a program
    program     a text as a program
    stores      the elements of the variables, and what a block did to them
    running     what a program writes, its log and its status
    judging     the verdict on a loop

Only whether a text is accepted is told, and not which rule a refused one breaks."""
