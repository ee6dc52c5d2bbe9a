"""What is checked of each run.

Always, whatever the network does:

- if a player has left one machine, each that this one doesn't regard as gone has as many words of it;
- two machines let a player leave at the same number of words, unless each regards the other as gone;
- two machines of which neither regards the other as gone have the same settled rows;
- nobody gives, or is told, two words for one frame, and nothing that an honest machine says is refused.

By what happens in a world some machines *live*: they never stop, and working lines connect them, each way. Others *stop*: they are
broken off for good, or leave. Of them:

- nobody who lives is put out by one who lives, and who stops is put out by all who live;
- the players of the gone leave, and frames go on at the end (if the network splits while epochs go on, of all that haven't ended);
- a word that a machine gave stands in the settled rows of those who live, at the frame that it was given for;
- who finds itself with too few is cut off, puts nobody out, and ends, unless its program puts the others out.
"""


def broken_laws(world):
    """The laws that a run broke, in words."""
    machines = [m for m in world.machines.values() if m.epoch]
    faults = set(world.faults)
    for a in machines:
        faults |= a.faults | of_one(a)
        for epoch in a.epochs():
            faults |= epoch.mesh.faults
        for b in machines:
            if a.name < b.name:
                faults |= of_two(world, a, b)
    for live, stop in world.plan.claims.get("groups", ()):
        faults |= of_those_who_live(world, live, stop)
    if world.plan.claims.get("go on"):
        faults |= {"a machine stands" for m in machines if not m.over and world.frames[m.name][0] < world.before.get(m.name, 0) + 50}
    return sorted(faults | of_the_lonely(world))


def of_one(machine):
    """The words that a machine gave stand in the rows that it has, where they were given."""
    given = ((machine.rows.get(at), player, word) for at, player, word in machine.promised)
    if any(row is not None and (row[player] is None or row[player][0] != word) for row, player, word in given):
        return {"LAW: a given word is lost"}
    return set()


def of_two(world, a, b):
    """What has to hold of two machines at any time."""
    faults = set()
    for one in a.epochs():
        for other in b.epochs():
            if one.terms.id == other.terms.id:
                faults |= of_two_meshes(one.mesh, other.mesh) | of_two_meshes(other.mesh, one.mesh)
    common = [at for at in a.rows.keys() & b.rows.keys() if a.rows[at] != b.rows[at]]
    if common and any(min(common) < world.known[id].base for id in set(a.chain) & set(b.chain)):
        faults.add("LAW: of one id, and another past")
    if common and are_together(a, b):
        faults.add("LAW: together, and other settled rows")
    return faults


def are_together(a, b):
    """Whether two machines are in the match together, as both see it."""
    return not (a.over or b.over) and b.name in a.epoch.terms.members and a.name in b.epoch.terms.members \
        and not a.epoch.mesh.is_gone(b.name) and not b.epoch.mesh.is_gone(a.name)


def of_two_meshes(a, b):
    faults = set()
    for p in a.players:
        if a.left[p] is None:
            continue
        if not a.is_gone(b.me) and len(b.words[p]) != a.left[p]:
            faults.add("LAW: who stays has as many")
        if b.left[p] not in (None, a.left[p]) and not (a.is_gone(b.me) and b.is_gone(a.me)):
            faults.add("LAW: they agree")
    return faults


def of_those_who_live(world, live, stop):
    """What has to hold of machines that live together, for which others stop."""
    faults, machines = set(), world.machines
    living = [machines[name] for name in live if is_owed(world, name)]
    if any(machine.epoch is None for machine in living):
        faults.add("a newcomer doesn't come in")
    living = [machine for machine in living if machine.epoch]
    stopped = [m.name for m in machines.values() if m.name in stop or m.stopped]
    for machine in living:
        mesh = machine.epoch.mesh
        if machine.over or any(mesh.is_gone(other.name) for other in living):
            faults.add("one who lives was put out")
        if any(name in mesh.members and not mesh.is_gone(name) for name in stopped):
            faults.add("one who stopped is still there")
        if any(mesh.left[p] is None and mesh.is_orphan(p, mesh.gone) for p in mesh.players):
            faults.add("a player doesn't leave")
        if world.frames[machine.name][0] < world.before.get(machine.name, 0) + 50:
            faults.add("the match stands")
        if any(are_together(machine, other) and not set(machine.chain[-2:]) & set(other.chain[-2:]) for other in living):
            faults.add("together, and in other epochs")
    return faults


def is_owed(world, name):
    """Whether a machine that lives has to be in the match: a newcomer only if there is a player for it, and nobody was put out by a
    call, since it may have come in at that one's side."""
    machine = world.machines[name]
    if not machine.newcomer:
        return True
    if world.plan.claims.get("kicked"):
        return False
    others = [m for m in world.machines.values() if m.epoch and m is not machine and not m.over]
    return machine.epoch is not None or not any(None not in m.epoch.terms.owners for m in others)


def of_the_lonely(world):
    faults = set()
    lonely = world.plan.claims.get("lonely", ())
    for name in lonely:
        machine = world.machines[name]
        if any(machine.epoch.mesh.is_gone(other) for other in machine.epoch.mesh.members if other not in lonely):
            faults.add("one who is cut off puts others out")
        if machine.why != "cut off":
            faults.add("one who is cut off doesn't end")
    return faults
