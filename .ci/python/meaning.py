"""What programs mean, written from docs/LANGUAGE.md alone."""


def holds(condition, database):
    word, has = condition[0], database.get(condition[1])
    if word == "atmost":
        return sum(key.startswith(condition[1]) for key in database) <= condition[2]
    if word == "equals":
        return has is not None and type(has) is type(condition[2]) and has == condition[2]
    if word == "absent":
        return has is None
    return isinstance(has, int) and has >= condition[2]


def value_of(term, database):
    """The term's value, or None."""
    word = term[0]
    if word == "lit":
        return term[1]
    has = database.get(term[1])
    if word == "copy":
        return has
    if not isinstance(has, int) or not -2**63 <= has + term[2] < 2**63:
        return None
    return has + term[2]


def behind_ops(ops, database):
    """The database after the ops, or None where one of them can't be done."""
    database = dict(database)
    for op in ops:
        if op[0] == "del":
            database.pop(op[1], None)
            continue
        value = value_of(op[2], database)
        if value is None:
            return None
        database[op[1]] = value
    return database


def became(program, database):
    """What becomes of the program, which is "update", "merge" with the number of the alternative, or "none", and the database after it."""
    check, update, merge = program
    if all(holds(condition, database) for condition in check):
        then = behind_ops(update, database)
        return ("none", database) if then is None else ("update", then)
    for number, (when, ops) in enumerate(merge, 1):
        if all(holds(condition, database) for condition in when):
            then = behind_ops(ops, database)
            if then is not None:
                return "merge %d" % number, then
    return "none", database


def behind(program, database):
    """The database after the program."""
    return became(program, database)[1]
