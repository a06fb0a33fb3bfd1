"""What a rule file may have, and the words of all refusals, in the order of their numbers."""

MAX_FILE, MAX_TYPES, MAX_CONSTRUCTORS, MAX_FIELDS = 16384, 32, 16, 6
MAX_FUNCTIONS, MAX_PARAMETERS, MAX_BODY, MAX_NESTING, MAX_VIEW = 64, 8, 1024, 32, 32
MAX_LABEL, MAX_DEPTH, MAX_STEPS = 255, 64, 4096
MAX_PARENTHESES = 64  # of a text, which a rule file does not have

REACHLIST_STEPS = 240  # reachlist lends 16,384 words, and a search takes 64 * S + 1,024

REFUSALS = ["short", "mark", "range", "stranger", "code", "misfit", "tail", "hollow", "shallow", "input", "bench", "full", "page", "scrap",
            "spelling"]
