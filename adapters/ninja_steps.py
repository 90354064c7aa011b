"""The steps that collate the targets of a build.

A step is mostly that of one target. Static libraries whose order only their scans tell are collated
by one step, that of a group: in each build it finds which of them needs which.
"""
import json
from dataclasses import dataclass, field

from ninja_targets import reachability


@dataclass(eq=False)
class Step:
    targets: list
    # the steps of all that its targets may import from, directly or through others
    below: list = field(default_factory=list)

    @property
    def is_group(self):
        return len(self.targets) > 1 or bool(self.targets[0].candidates)

    @property
    def folder(self):
        return self.targets[0].folder

    @property
    def dyndep(self):
        return f"{self.folder}/{'group' if self.is_group else 'modules'}.dd"

    @property
    def document(self):
        return f"{self.folder}/{'group' if self.is_group else 'target'}.json"

    @property
    def loaded(self):
        return f"{self.folder}/loaded"

    @property
    def waits(self):
        """What its compilations wait for, so that Ninja has read the dyndep files below."""
        return [f"{self.folder}/below"] if len(self.below) > 1 else [it.loaded for it in self.below]


def steps_of(targets):
    """Returns the steps, each after those below it. Targets that may import from each other, also
    through others, have one step."""
    after = {name: sorted(it.imports_from) for name, it in sorted(targets.items())}
    before = {name: [] for name in after}
    for name, others in after.items():
        for other in others:
            before[other].append(name)
    seen, groups = set(), []
    for name in reversed(postorder(after, after, set())):
        groups.append(sorted(postorder([name], before, seen)))
    steps = [Step([targets[it] for it in names]) for names in reversed(groups) if names]
    own = {target.name: step for step in steps for target in step.targets}
    reached = reachability(lambda step: {own[name] for it in step.targets
                                         for name in it.imports_from} - {step})
    for step in steps:
        step.below = [it for it in steps if it in reached(step)]
    return steps


def postorder(names, after, seen):
    """Returns what is reached from these names and is not in `seen`, to which it is added, each
    after all that it reaches."""
    found = []
    for root in names:
        stack = [(root, iter(after[root]))] if root not in seen else []
        seen.add(root)
        while stack:
            name, rest = stack[-1]
            new = next((it for it in rest if it not in seen), None)
            if new is None:
                found.append(stack.pop()[0])
            else:
                seen.add(new)
                stack.append((new, iter(after[new])))
    return found


def documents_of(steps, targets, build):
    """Returns the documents of all steps by their names."""
    linked = reachability(lambda name: targets[name].links)

    def infos(names):
        return sorted(targets[it].info for it in names)

    def member(target):
        return {"document": f"{target.folder}/target.json", "candidates": infos(target.candidates),
                "content": target.document(build, infos(linked(target.name) - {target.name}))}

    documents = {}
    for step in steps:
        members = [*map(member, step.targets)]
        group = {"dyndep": step.dyndep, "targets": members}
        documents[step.document] = group if step.is_group else members[0]["content"]
    return {name: json.dumps(it, indent=1) + "\n" for name, it in documents.items()}
