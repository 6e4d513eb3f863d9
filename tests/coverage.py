"""How often each refusal number was answered, as a table; 0 stands for an answer that is no refusal."""
from building import fail


def table(columns, numbers):
    """Prints a row for each number and a column for each of the calls; a number that no call answered, or one that is not to be, is a failure."""
    print("tests: %8s" % "number" + "".join("%13s" % name for name in columns))
    for number in numbers:
        print("tests: %8s" % (number or "accepted") + "".join("%13s" % (counts.get(number) or "-") for counts in columns.values()))
    answered = {number for counts in columns.values() for number in counts}
    if answered != set(numbers):
        fail("not answered: %s; answered, but not to be: %s" % (sorted(set(numbers) - answered), sorted(answered - set(numbers))))
