"""A plain model of a tree with links, and of what watched paths have shown: each change is made on a copy. See README.md."""

MOST_LINKS = 40


def path(text):
    return tuple(name for name in text.split("/") if name)


def text(names):
    return "".join("/" + name for name in names) or "/"


class Tree:
    """What stands at each path: ("dir",), ("link", target) or ("file", bytes, time)."""

    def __init__(self, nodes=None):
        self.nodes = {(): ("dir",)} if nodes is None else nodes

    def follow(self, names):
        """The place that a path leads to, links followed, or None."""
        for _ in range(MOST_LINKS + 1):
            onward = None
            for end in range(len(names) + 1):
                node = self.nodes.get(names[:end])
                if node is None or node[0] == "file" and end < len(names):
                    return None
                if node[0] == "link":
                    onward = node[1] + names[end:]
                    break
            if onward is None:
                return names
            names = onward
        return None

    def is_dir(self, names):
        return self.nodes.get(names, ("",))[0] == "dir"

    def lies_in_directory(self, names):
        return bool(names) and self.is_dir(names[:-1])

    def below(self, place):
        return [names[-1] for names in self.nodes if names and names[:-1] == place]

    def is_possible(self, change):
        kind, *words = change
        at = words[0]
        if kind in ("put", "link"):
            return self.lies_in_directory(at) and not self.is_dir(at)
        if kind == "mkdir":
            return self.lies_in_directory(at) and at not in self.nodes
        if kind == "remove":
            return self.lies_in_directory(at) and at in self.nodes and not self.below(at)
        if kind == "time":
            return self.nodes.get(at, ("",))[0] == "file"
        to = words[1]
        if not self.lies_in_directory(to) or at not in self.nodes:
            return False
        if self.is_dir(at):
            return to not in self.nodes and to[: len(at)] != at
        return not self.is_dir(to)

    def changed(self, change):
        kind, *words = change
        at, nodes = words[0], dict(self.nodes)
        if kind == "put":
            nodes[at] = ("file", words[2], words[1])
        elif kind == "link":
            nodes[at] = ("link", words[1])
        elif kind == "mkdir":
            nodes[at] = ("dir",)
        elif kind == "remove":
            del nodes[at]
        elif kind == "time":
            nodes[at] = ("file", nodes[at][1], words[1])
        else:
            nodes = {}
            for names, node in self.nodes.items():
                if names[: len(at)] == at:
                    nodes[words[1] + names[len(at) :]] = node
                elif names[: len(words[1])] != words[1]:
                    nodes[names] = node
        return Tree(nodes)

    def shown(self, folder):
        """What the watched paths of a folder show: each path, with the time if it is a multi-pack index, and its bytes."""
        directory = folder + ("pack",)
        place = self.follow(directory)
        if place is None or not self.is_dir(place):
            return
        for name in self.below(place):
            is_multi = name == "multi-pack-index"
            if is_multi or name.endswith((".idx", ".pack")):
                node = self.nodes.get(self.follow(directory + (name,)), ("",))
                if node[0] == "file":
                    yield (directory + (name,), node[2] if is_multi else 0), node[1]


class Model:
    """What watched paths have shown first, and the tree."""

    def __init__(self):
        self.tree, self.folders, self.kept = Tree(), [], {}

    def note(self, tree):
        for folder in self.folders:
            for key, bytes_ in tree.shown(folder):
                self.kept.setdefault(key, bytes_)
        self.tree = tree

    def watch(self, folder):
        if folder not in self.folders:
            self.folders.append(folder)
            self.note(self.tree)

    def change(self, change):
        """The outcome of a change of another program, which is made where it may be."""
        if not self.tree.is_possible(change):
            return "misuse impossible-change"
        after = self.tree.changed(change)
        for folder in self.folders:
            for key, bytes_ in after.shown(folder):
                if self.kept.get(key, bytes_) != bytes_:
                    return "misuse two-contents"
        self.note(after)
        return "applied"
