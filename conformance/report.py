"""What is printed about the cases that a router was asked."""
import collections

# How much of a line is shown, and of what stands in it before the first difference.
SHOWN = 400
BEFORE = 100


def print_failure(case, failure):
    print(f"\n{case.name} fails. The rule: {case.rule}")
    if case.against:
        print(f"  a router fails here in which {case.against}")
    for line, _ in case.statements:
        if line.split()[0] in ("hall", "blocked", "cost", "aisle", "lend"):
            print(f"  {line[:160]}")
    owed, given = differing(" | ".join(failure.owed), " | ".join(failure.given))
    print(f"  asked  {failure.asked[:160]}")
    print(f"  owed   {owed}")
    print(f"  given  {given}")


def differing(owed, given):
    """Two texts, or of long ones the parts in which the first difference lies."""
    pairs = enumerate(zip(owed, given))
    at = next((at for at, (a, b) in pairs if a != b), min(len(owed), len(given)))
    start = at - BEFORE if at >= SHOWN - BEFORE else 0
    return part(owed, start), part(given, start)


def part(text, start):
    return ("…" if start else "") + text[start:start + SHOWN] + ("…" if start + SHOWN < len(text) else "")


def print_groups(asked):
    """How many cases of each group are answered as owed."""
    cases = collections.Counter(case.group for case, _ in asked)
    failed = collections.Counter(case.group for case, failure in asked if failure)
    for name, count in sorted(cases.items()):
        print(f"{name}: {count - failed[name]} of {count} as owed")


def by_rule(failed):
    """The rules of cases that fail, and how many cases each: the one that most of them share first."""
    return collections.Counter(case.rule for case, _ in failed).most_common()


def rule_by_rule(failed):
    """The cases that fail, those of the rule that most of them share first."""
    ranks = {rule: rank for rank, (rule, _) in enumerate(by_rule(failed))}
    return sorted(failed, key=lambda pair: ranks[pair[0].rule])


def print_rules(asked, failed):
    cases = collections.Counter(case.rule for case, _ in asked)
    for rule, count in by_rule(failed):
        print(f"broken rule, {count} of its {cases[rule]} cases: {rule}")
    alone = collections.Counter(filter(None, (differing_alone(failure) for _, failure in failed)))
    for number, count in alone.most_common():
        print(f"in {count} of the cases that fail, the {number} differs and all else is as owed")


def differing_alone(failure):
    """Leg or run, if a route is as owed but for it."""
    owed, given = (numbers_and_steps(lines) for lines in (failure.owed, failure.given))
    differing = [at for at, pair in enumerate(zip(owed, given)) if pair[0] != pair[1]]
    return ("leg", "run")[differing[0]] if owed[2] and len(differing) == 1 and differing[0] < 2 else None


def numbers_and_steps(lines):
    """Leg, run and steps of a route's line; what stands before them is left out."""
    words = lines[0].split()
    steps = [word for word in words if ":" in word]
    numbers = words[:len(words) - len(steps)]
    return (*numbers[-2:], steps) if len(numbers) > 2 else (None, None, [])
