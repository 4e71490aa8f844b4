"""The text of a crate: where each function stands, and which functions a definition reaches."""
import os
import re

PARTS = ("src", "specs", "proofs")


class Fault(Exception):
    """Why an edit can't be tried."""


class Source:
    """The files of a crate by their paths, and its functions by theirs."""

    FN = re.compile(r'^([ \t]*)(?:pub(?:\(\w+\))? )?(?:const )?(?:extern "C" )?fn (\w+)', re.M)
    ATTRIBUTES = re.compile(r"(?:^[ \t]*#\[.*\]\n)*\Z", re.M)
    CYCLE = re.compile(r"^[ \t]*#\[cycle\(.*\n", re.M)
    OWNER = re.compile(
        r"^impl(?:<([^{]*?)>)? (?:([\w:]+)(?:<([\w:]+)[^{]*>)?\s+for )?([\w:]+)(?:<([^{]*)>)?|^(?:pub )?trait (\w+)|^}", re.M
    )
    # Where more than the contract of a function may count for its callers.
    BODY_COUNTS = re.compile(r"\bconst fn\b|-> impl\b|\bfn main\b")
    TYPE = re.compile(r"^(?:pub(?:\(\w+\))? )?(?:struct|enum) (\w+)", re.M)
    CONTRACT = re.compile(r"\b(ensures|requires|ghost)\b")
    USE = re.compile(r"^\s*(?:pub )?(?:ghost )?use [^;]*;|^use .*|//.*|--.*", re.M)
    WORDS = r"(?:(?:abbrev|pub|unfoldable|record|enum) )*([^\s:({]+)"
    BLOCK = re.compile(r"^(?:unfolding .*\n)*(?!use |pub mod |mod |unfolding |--)" + WORDS, re.M)
    INNER = re.compile(rf"^ +{WORDS} : ", re.M)
    IMPORT = re.compile(r"\bRattle\.(specs|proofs)\.([\w.]+)\.{([^}]*)}")
    PATH = re.compile(r"\bcrate::(specs|proofs)::([\w:]+)::(\w+)")
    RECORD = re.compile(r"^( +)(?:pub )?record (\S+) .*\n(?:\1 +.*\n)*", re.M)

    def __init__(self, folder):
        self.name, self.texts = os.path.basename(folder), {}
        for part in PARTS:
            for at, _, names in os.walk(f"{folder}/{part}"):
                for path in (f"{at}/{it}" for it in names):
                    with open(path, encoding="utf-8") as it:
                        self.texts[os.path.relpath(path, folder)] = it.read()
        sources = [it for it in self.texts if it.startswith("src/")]
        self.homes = {name: module_of(it) for it in sources for name in self.TYPE.findall(self.texts[it])}
        self.places = {name: place for it in sources for name, place in self.functions_of(it)}
        self.imported = {it: self.imports_of(it) for it in self.texts}
        self.heads = {it: self.spoken_in(file, self.texts[file][at:body])
                      for it, (file, at, body, *_) in self.places.items()}
        self.wholes = {it: self.spoken_in(place[0], self.text_of(it)) for it, place in self.places.items()}
        self.blocks = [it for file in self.texts if file.endswith(".antt") for it in self.blocks_of(file)]
        self.types = set().union(*(self.spoken_in(it, self.beside_functions(it)) for it in sources))

    def functions_of(self, file):
        """The path below the crate of each function of the file, as rt check prints it, with where it stands: its file,
        its beginning with its attributes, its body's, its end, and whether it is a trait's. A method has the module of
        its type."""
        text = self.texts[file]
        for found in self.FN.finditer(text):
            module, owner, is_of_trait = module_of(file), [], False
            if found[1]:
                free, trait, given, type_, of, own = list(self.OWNER.finditer(text, 0, found.start()))[-1].groups("")
                of = [it for it in re.findall(r"(?<!')\b[A-Za-z_]\w*", of) if not re.search(rf"\b{it}\b", free)]
                given = "".join(it[:1].upper() + it[1:] for it in given.split("::"))
                args = "".join(it[:1].upper() + it[1:] for it in of) if trait else ""
                owner = [own or type_.rpartition("::")[2] + args + trait.rpartition("::")[2] + given]
                is_of_trait = bool(own or trait)
                module = module if is_of_trait else self.homes.get(type_, module)
            body = re.compile(rf"{{}}$|^{found[1]}{{|{{$|;$", re.M).search(text, found.end()).end()
            is_long = text[body - 1 : body + 1] == "{\n"
            end = text.find(f"\n{found[1]}}}", body) + len(found[1]) + 2 if is_long else body
            start = self.ATTRIBUTES.search(text, 0, found.start()).start()
            yield "::".join([*module, *owner, found[2]]), (file, start, body, end, is_of_trait)

    def text_of(self, place):
        file, start, _, end, _ = self.places[place]
        return self.texts[file][start:end]

    def answers(self, function, goal):
        """Whether the function's proof has an answer for the goal."""
        text = self.texts.get(f"proofs/{function.replace('::', '/')}/Answers.antt", "")
        return re.search(rf"^pub {re.escape(goal)} :", text, re.M) is not None

    def has_types(self, place):
        """Whether a function, or what it is of, has a parameter that is a type."""
        file, start, body, *_ = self.places[place]
        text = self.texts[file]
        head = text[start:body]
        given = re.findall(r"\bfn \w+<([^>]*)>", head)
        if re.match(r"[ \t]", text[start:]):
            given += re.findall(r"^impl<([^>]*)>", list(self.OWNER.finditer(text, 0, start))[-1][0])
        return bool(re.search(r"\bimpl\b", head.partition("(")[2])) or any(
            not it.strip().startswith("'") for all in given for it in all.split(",") if it.strip())

    def open_head(self, place):
        """Where the attributes of a function begin and end, and what they are where no tactic tries its goals."""
        file, start, *_ = self.places[place]
        text = self.text_of(place)
        end = self.FN.search(text).start()
        others = [it for it in text[:end].splitlines(True) if "#[tactic(" not in it]
        return start, start + end, "".join([*others, "#[tactic(none)]\n"])

    def attribute(self, place):
        """What the tactics of a function are given, as crate paths with the crate's own name."""
        found = re.search(r"#\[tactic\((.*)\)\]", self.text_of(place))
        return found[1].replace("crate::", f"{self.name}::") if found else ""

    def called(self, place):
        """What a function becomes that is only called: where it stands, and its contract over a body that nothing
        proves, and which calls nothing. None where it has to stay as it is."""
        file, start, body, end, _ = self.places[place]
        at, to, head = self.open_head(place)
        signature = self.texts[file][to:body]
        is_whole = signature.endswith("{") and signature.count("{") == signature.count("}") + 1
        if not is_whole or self.BODY_COUNTS.search(signature):
            return None
        return file, at, end, f"{self.CYCLE.sub('', head)}{signature}\n    unreachable!()\n}}"

    def proof_of(self, place):
        """The files of the function's proof, but for one that another names."""
        folder, own = f"proofs/{place.replace('::', '/')}", f".proofs.{place.replace('::', '.')}."
        files = [it for it in self.texts if os.path.dirname(it) == folder]
        others = [text for it, text in self.texts.items() if it not in files]
        return [it for it in files if not any(own + os.path.basename(it)[:-5] in text for text in others)]

    def copied(self, edit):
        """The text of the edit's function with all that it changes, or None where a copy can't stand behind it, or the
        edit changes something else too."""
        file, *_, is_of_trait = self.places[edit.place]
        text = self.text_of(edit.place)
        for where, old, new in edit.pairs:
            if is_of_trait or where != file or text.count(old) != 1:
                return None
            text = text.replace(old, new)
        return text

    def restated(self, edit):
        """The text of the edit's function whose contract speaks of a definition that the edit changes, with this under
        another name, and what else has to change: the definition's file, with such copies at its end, and the import.
        None where the edit changes something else too."""
        file, start, _, end, _ = self.places[edit.place]
        home, last = edit.changes[0][0], f"_{edit.name}"
        if not home.startswith("specs/") or any(it[0] != home for it in edit.changes):
            return None
        names, parts = set(), list(self.spans_of(home))
        for said, spoken, at, to in parts * 2:
            if names & spoken or any(at <= it[1] < to for it in edit.changes):
                names |= said
        copies = "".join(
            edited(self.texts[home], at, to, [it for it in edit.changes if at <= it[1] < to])
            for said, _, at, to in parts if said <= names)
        stated = names & self.heads[edit.place]
        if not stated:
            return None
        words = re.compile(rf"(?<![\w.])(?:{'|'.join(re.escape(it) for _, it in names)})(?!\w)")
        text, copies = (words.sub(lambda it: it[0] + last, it) for it in (self.text_of(edit.place), copies))
        path = home.removesuffix(".antt").replace("/", ".")
        uses = "".join(f"ghost use Rattle.{self.name}.{path}.{{{it}{last}}};\n" for _, it in stated)
        at = self.texts[file].index("ghost use ")
        behind = len(self.texts[home])
        return text, [(home, behind, behind, f"\n{copies}"), (file, at, at, uses)]

    def span(self, place, file, old):
        """Where a text of an edit begins and ends, which has to stand once in the function, or else in the file."""
        text, (its, start, _, end, _) = self.texts.get(file, ""), self.places[place]
        if its != file or text.count(old, start, end) != 1:
            start, end = 0, len(text)
        if (found := text.count(old, start, end)) != 1:
            raise Fault(f"its 'old:' text stands in {file} {found} times, and not once")
        at = text.find(old, start)
        return at, at + len(old)

    def blocks_of(self, file):
        """The declarations of a definition's or a proof's file: their names, what they speak of, and in the folder of
        whose proof they stand."""
        function = "::".join(file.split("/")[1:-1])
        for names, spoken, _, _ in self.spans_of(file):
            yield names, spoken, function in self.places and function

    def spans_of(self, file):
        """The names that each declaration of a file has, what it speaks of, and where it begins and ends."""
        text = self.texts[file]
        starts = [it.start() for it in self.BLOCK.finditer(text)] + [len(text)]
        for at, to in zip(starts, starts[1:]):
            names = {self.BLOCK.match(text, at)[1]}
            if names == {"module"}:
                names = set(self.INNER.findall(self.RECORD.sub(r"\1\2 : ", text[at:to])))
            yield {(file, it) for it in names}, self.spoken_in(file, self.USE.sub("", text[at:to])), at, to

    def spoken_in(self, file, text):
        """What a text of the file speaks of: each of its words, as a name of the file in which that is declared if the
        file imports it from there, and else as one of its own; of a path of the crate's, the name at its end."""
        paths = {(f"{part}/{path.replace('::', '/')}.antt", name) for part, path, name in self.PATH.findall(text)}
        return paths.union(*(self.imported[file].get(it, {(file, it), it}) for it in words_of(text)))

    def imports_of(self, file):
        """The names that a file imports from the crate's definitions and proofs, each with where it is declared. One of
        code that these speak of has no file."""
        found = {}
        for part, path, names in self.IMPORT.findall(self.texts[file].replace(f"Rattle.{self.name}.", "Rattle.")):
            home = f"{part}/{path.replace('.', '/')}.antt"
            for name, _, other in (it.strip().partition(" as ") for it in names.split(",")):
                found.setdefault(other or name, set()).add((home, name) if home in self.texts else name)
        return found

    def beside_functions(self, file):
        """The text of a file but for its functions and what it imports: types, and what their contracts say."""
        text, at, found = self.texts[file], 0, []
        for _, start, _, end, _ in sorted(it for it in self.places.values() if it[0] == file):
            found.append(text[at:start])
            at = max(at, end)
        return self.USE.sub("", "".join([*found, text[at:]]))

    def place_of(self, edit):
        """The edit's function as places has it. Of a method for a type with arguments, whose name rt makes of these
        too, it is the one in which the edit stands."""
        if edit.function in self.places:
            return edit.function
        file, old, _ = edit.pairs[0]
        around = self.around(file, self.texts.get(file, "").find(old))
        if around and around.rpartition("::")[2] == edit.function.rpartition("::")[2]:
            return around
        raise Fault(f"there is no function {edit.function}")

    def around(self, file, at):
        """The function in which that stands, or nothing."""
        return next((it for it, place in self.places.items() if place[0] == file and place[1] <= at < place[3]), None)

    def reached(self, edit):
        """The functions whose goals the edit may open, or None where that isn't known."""
        names, reached = set(), {edit.place}
        for file, at, to, new in edit.changes:
            text, function = self.texts[file], self.around(file, at)
            if file.endswith(".antt"):
                names.add((file, [it[1] for it in self.BLOCK.finditer(text, 0, to)][-1]))
            elif function and at >= self.places[function][2] and not self.CONTRACT.search(text[at:to] + new):
                reached.add(function)
            else:
                return None
        return self.closed(names, reached)

    def closed(self, names, reached):
        """The functions, with those that speak of one of the names, or of what speaks of one."""
        count = -1
        while count != len(names) + len(reached):
            count = len(names) + len(reached)
            for said, spoken, function in self.blocks:
                if names & spoken and function:
                    reached.add(function)
                elif names & spoken:
                    names |= said
            for name, spoken in self.wholes.items():
                if names & spoken:
                    reached.add(name)
                if names & self.heads[name]:
                    names.add(name.rpartition("::")[2])
        return None if names & self.types else reached


def answered(proof, goals, goal, tactic, attribute):
    """A proof's file with an answer by a tactic; the goal has the names of its arguments behind it. The tactic takes
    what the function's attribute names: lemmas to use, and definitions to unfold."""
    name = goal.partition(" ")[0]
    given = {word: [it.strip().rpartition("::") for it in paths.split(",")]
             for word, paths in re.findall(r"(using|unfolding)\(([^)]*)\)", attribute)}
    said = ["rules"] if tactic == "search" else ["arith", "common_steps"]
    wanted = [("Rattle.std.proofs.Common", "rules")] if tactic == "search" else [
        ("Rattle.std.proofs.Common", "arith"), ("Rattle.std.proofs.lemmas.Grind", "common_steps")]
    wanted += [(f"Rattle.{path.replace('::', '.')}", it) for paths in given.values() for path, _, it in paths]
    heads = [f"use {path}.{{{it}}}" for path, it in wanted
             if not re.search(rf"^use .*[{{ ]{re.escape(it)}[,}}]", proof, re.M)]
    heads += [] if " as goal\n" in proof else [f"use Rattle.{goals} as goal"]
    said += [it for _, _, it in given.get("using", [])]
    unfolded = [f"unfolding {' '.join(it for _, _, it in given['unfolding'])}"] if "unfolding" in given else []
    terms = said[0] if len(said) == 1 else f"({', '.join(said)})"
    return "\n".join([*heads, proof, f"pub {name} : goal.{name}", *unfolded, f"{goal} = {tactic} {terms}", ""])


def edited(text, at, to, changes):
    """A part of a text with the changes in it."""
    for _, start, end, new in sorted(changes, reverse=True):
        text, to = text[:start] + new + text[end:], to + len(new) - (end - start)
    return text[at:to]


def module_of(file):
    """The path of a file's module below the crate."""
    return [it for it in file.removeprefix("src/").removesuffix(".rt").split("/") if it not in ("lib", "main")]


def words_of(text):
    """The names that stand in a text, a part of one that has dots by itself."""
    return set(re.findall(r"[^\s(){}\[\],.:;&*]+", text))
