"""The definitions of names, in the `specs` of crates/scope_tables and crates/scope_core, sentence by sentence.
The modules are those that `texts.py` reads.

Nothing here is like the crates: there are no tables, no order of modules and no walk over bases. What is found is
looked for among all entities, and what entities take and which of them are hidden comes in rounds, as many as there are
entities.
"""

from texts import MATERIAL, RESERVED, read_module

WORDS = {number: word for word, number in RESERVED.items()}
FUNCTIONS = ("Function", "Intrinsic")
CALLABLES = ("Material", "Function", "Intrinsic", "Struct")
KINDS = ("twice", "unknown", "not exported", "clash")


# ---- Entities and PreludeEntities

class Entity:
    """An entity, what it takes, and the place of its name."""

    def __init__(self, id, name, group, sort, exported, takes, at):
        self.id, self.name, self.group, self.sort = id, name, group, sort
        self.exported, self.takes, self.at = exported, takes, at


def declared(module, index, declaration):
    """The entities of a declaration."""
    form, exported, (name, at), *more = declaration
    types = ("listed", [ty for ty, _ in more[0]]) if form not in ("enum", "variant") else ("listed", [])
    sort = form.capitalize()
    if form == "variant":
        sort = "Material" if more[0] == MATERIAL else "Function"
        types = ("based", more[1])
    if form == "prototype":
        sort = "Intrinsic"
    made = [Entity((module, index, 0), name, name, sort, exported, types, at)]
    if form == "enum":
        made += [Entity((module, index, place), value, name, "EnumValue", exported, ("listed", []), value_at)
                 for place, (value, value_at) in enumerate(more[0], 1)]
    return made


PRELUDE = ((0, 0, "Enum", "intensity_mode", ""),
           (0, 1, "EnumValue", "intensity_radiant_exitance", ""),
           (0, 2, "EnumValue", "intensity_power", ""),
           (1, 0, "Struct", "material_emission", "edf color intensity_mode"),
           (2, 0, "Struct", "material_surface", "bsdf material_emission"),
           (3, 0, "Struct", "material_volume", "vdf color color"),
           (4, 0, "Struct", "material_geometry", "float3 float float3"),
           (5, 0, "Struct", "material",
            "bool material_surface material_surface color material_volume material_geometry hair_bsdf"),
           (6, 0, "Intrinsic", "state_normal", ""))


def prelude(module):
    """What each module sees without an import, behind so many modules."""
    return [Entity((module, index, part), name, name, sort, True,
                   ("known", [(ty, ("one",)) for ty in types.split()]), 0)
            for index, part, sort, name, types in PRELUDE]


# ---- Brought

def meant(exists, importer, lead, parts):
    """The name of the module that a reference means in another. None for one that goes past the top."""
    package = importer[:-1]
    if lead == "absolute":
        return tuple(parts)
    if lead == "here":
        return package + tuple(parts)
    if lead == "bare":
        return package + tuple(parts) if exists(package + tuple(parts)) else tuple(parts)
    return package[:len(package) - lead] + tuple(parts) if lead <= len(package) else None


def brought(names, importer, imports):
    """What a module brings: from which module, which names, or None for all, and whether by `using`."""
    made = []
    for one in imports:
        items = one[1] if one[0] == "import" else [one[1:]]
        for lead, parts, listed in items:
            source = names.index(meant(names.__contains__, importer, lead, parts))
            made.append((source, [listed] if one[0] == "import" and listed else listed, one[0] == "using"))
    return made


# ---- Visible

class World:
    """The names of modules, and what each of them brings."""

    def __init__(self, names, brings):
        self.names, self.brings = names, brings


def brings(entity, bringing):
    """An import brings an entity, if that is exported."""
    source, names, _ = bringing
    return source == entity.id[0] and (names is None or any(name in (entity.name, entity.group) for name, _ in names))


def uses(entity, bringing):
    """The same of one by `using`."""
    return bringing[2] and brings(entity, bringing)


def is_within(everything, way, world, module, entity):
    """An entity is the module's own, or brought in this way."""
    return entity.id[0] == module or ((everything or entity.exported)
                                      and any(way(entity, bringing) for bringing in world.brings[module]))


def fits(absolute, front, parts):
    """The components before a name are those of a module, or the last of them."""
    return tuple(front) == (parts if absolute else parts[max(0, len(parts) - len(front)):])


def found(everything, world, entities, module, name):
    """All that a name finds in a module, in order. With `everything` all is taken for exported."""
    given = len(world.names)
    if name[0] == "word":
        return [one for one in entities if one.id[0] == given and one.name == WORDS[name[1]]]
    _, absolute, (*front, last) = name
    named = [one for one in entities if one.name == last]
    if not absolute and not front:
        near = [one for one in named if is_within(everything, uses, world, module, one)]
        return near or [one for one in named if one.id[0] == given]
    return [one for one in named
            if fits(absolute, front, world.names[one.id[0]] if one.id[0] < given else ())
            and is_within(everything, brings, world, module, one)]


def are_overloads(entities):
    """All are functions, or all annotations."""
    return all(one.sort in FUNCTIONS for one in entities) or all(one.sort == "Annotation" for one in entities)


def look(world, entities, module, name):
    """What a name finds in a module, as a text."""
    here = found(False, world, entities, module, name)
    if not here:
        return "not exported" if found(True, world, entities, module, name) else "unknown"
    if len(here) == 1 or are_overloads(here):
        return "found " + " ".join("%d.%d.%d" % one.id for one in here)
    return "clash %d.%d.%d %d.%d.%d" % (here[0].id + here[1].id)


# ---- Types

def shape(size):
    """A size, where deferred ones are all one."""
    return size[:1] if size[0] == "deferred" else size


def full_name(world, entity):
    """The absolute name of an entity, or its name in the prelude."""
    module = entity.id[0]
    if module == len(world.names):
        return entity.name
    return "".join(f"::{part}" for part in (*world.names[module], entity.name))


def type_of(world, entities, module, ty):
    """The type that is written in a module."""
    name, size = ty
    if name[0] == "word":
        return (WORDS[name[1]], shape(size))
    here = found(False, world, entities, module, name)
    if len(here) == 1 and here[0].sort in ("Struct", "Enum"):
        return (full_name(world, here[0]), shape(size))
    return ("?", name, size)


def has_deferred(takes):
    """A parameter has a deferred size."""
    return takes[0] == "listed" and any(size[0] == "deferred" for _, size in takes[1])


def types_in(world, entities, types, module, takes):
    """What an entity takes, by what stands and by what others take."""
    if takes[0] == "listed":
        return [type_of(world, entities, module, ty) for ty in takes[1]]
    if takes[0] == "known":
        return takes[1]
    here = found(False, world, entities, module, takes[1])
    if len(here) == 1 and here[0].sort in CALLABLES and not has_deferred(here[0].takes):
        return types[here[0]]
    return []


# ---- Standing

def share_name(one, other):
    """They have one name in one module."""
    return one.id[0] == other.id[0] and one.name == other.name


def stands(types, entities, one):
    """An entity isn't a prototype that one of these defines."""
    return one.sort != "Intrinsic" or not any(
        other.sort == "Function" and share_name(one, other) and types[one] == types[other] for other in entities)


def settled(world, entities):
    """What the entities take, and those that stand, after as many rounds as there are entities."""
    types = {one: [] for one in entities}
    for _ in entities:
        standing = [one for one in entities if stands(types, entities, one)]
        types = {one: types_in(world, standing, types, one.id[0], one.takes) for one in entities}
    return types, [one for one in entities if stands(types, entities, one)]


# ---- ScopeFaults

def may_stand(types, one, other):
    """Two entities of one name in one module may stand together."""
    apart = types[one] != types[other]
    if one.sort in FUNCTIONS and other.sort in FUNCTIONS:
        return apart or (one.sort == "Intrinsic") != (other.sort == "Intrinsic")
    return one.sort == other.sort == "Annotation" and apart


def twice_among(types, entities):
    """Entities that stand behind another with which they may not stand together."""
    return [(one.id[0], one.at, 0) for place, one in enumerate(entities)
            if any(share_name(earlier, one) and not may_stand(types, earlier, one) for earlier in entities[:place])]


def twice_listed(module, declaration):
    """Parameters and fields that stand behind an equal one."""
    if declaration[0] in ("enum", "variant"):
        return []
    names = [name for _, name in declaration[3]]
    return [(module, at, 0) for place, (name, at) in enumerate(names)
            if any(earlier == name for earlier, _ in names[:place])]


def import_faults(world, standing, module):
    """Imported names that name nothing, nothing that is exported, or something else too."""
    faults = []
    bringings = world.brings[module]

    def of_name(source, name):
        return [one for one in standing if one.id[0] == source and one.name == name]

    def exported_of(source, name):
        return [one for one in of_name(source, name) if one.exported]

    for place, (source, listed, used) in enumerate(bringings):
        for name, at in listed or []:
            exported = exported_of(source, name)
            if not exported:
                faults.append((module, at, 2 if of_name(source, name) else 1))
            others = of_name(module, name)
            for earlier, earlier_listed, earlier_used in bringings[:place]:
                if earlier_used and earlier != source and any(text == name for text, _ in earlier_listed or []):
                    others = others + exported_of(earlier, name)
            if used and exported and others and not are_overloads(exported + others):
                faults.append((module, at, 3))
    return faults


def scope_faults(world, modules, entities, types, standing):
    """All faults of a set, each as its module, its place and its kind."""
    faults = twice_among(types, entities)
    for module, (_, declarations) in enumerate(modules):
        faults += import_faults(world, standing, module)
        for declaration in declarations:
            faults += twice_listed(module, declaration)
    return faults


# ---- a set, from files

def closure(files, first):
    """Names and modules that one needs, in order. None where one is absent."""
    names, modules = [first], []
    for name in names:
        imports, declarations = read_module(files[name])
        modules.append((imports, declarations))
        for one in imports:
            for lead, parts, _ in (one[1] if one[0] == "import" else [one[1:]]):
                needed = meant(files.__contains__, name, lead, parts)
                if needed not in files:
                    return None
                if needed not in names:
                    names.append(needed)
    return names, modules


def placed(text, at):
    """The line and the column of a place."""
    return f"{text.count(chr(10), 0, at) + 1}:{at - text.rfind(chr(10), 0, at)}"


def told(files, first=("m",)):
    """The least fault of a set or `ok`, its world, and the entities that stand. None where a module is absent."""
    needed = closure(files, first)
    if needed is None:
        return None
    names, modules = needed
    world = World(names, [brought(names, name, imports) for name, (imports, _) in zip(names, modules)])
    entities = [one for module, (_, declarations) in enumerate(modules)
                for index, declaration in enumerate(declarations)
                for one in declared(module, index, declaration)] + prelude(len(names))
    types, standing = settled(world, entities)
    faults = scope_faults(world, modules, entities, types, standing)
    if not faults:
        return "ok", world, standing
    module, at, kind = min(faults)
    return f"{KINDS[kind]} {module} {placed(files[names[module]], at)}", world, standing
