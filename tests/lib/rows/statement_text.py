"""Reads the statements of module texts (tests/data/rows/README.md), and their blocks."""
import re

from rows.expression_text import tile
from rows.type_text import need

UNITS = ["Break", "Continue", "Kill"]
FIELDS = {
    "Emit": "start end", "Return": "value?", "Store": "pointer value", "ImageStore": "image coordinate value array_index?",
    "WorkGroupUniformLoad": "pointer result", "SubgroupBallot": "result predicate?",
}  # fmt: skip
BARRIERS = ["ControlBarrier", "MemoryBarrier"]
ATOMIC = re.compile(r"(Image)?Atomic(Add|Subtract|And|ExclusiveOr|InclusiveOr|Min|Max|Exchange)")
RAY_QUERY = {
    "Initialize": "acceleration_structure descriptor", "Proceed": "result", "GenerateIntersection": "hit_t", "ConfirmIntersection": "",
    "Terminate": "",
}  # fmt: skip
GATHERS = ["Broadcast", "Shuffle", "ShuffleDown", "ShuffleUp", "ShuffleXor", "QuadBroadcast"]
SWAPS = {"QuadSwap": "X", "QuadSwapX": "X", "QuadSwapY": "Y", "QuadSwapDiagonal": "Diagonal"}
COLLECTIVE = re.compile(r"Subgroup(All|Any|Add|Mul|Min|Max|And|Or|Xor)(Reduce|InclusiveScan|ExclusiveScan)?")
CASE = re.compile(r"(Falling)?(Case|CaseU32|CaseI32|Default)")


def atomic(clause):
    """Returns an atomic statement on memory or on an image."""
    on_image, fun = ATOMIC.fullmatch(clause.name).groups()
    compare = ["compare?"] if fun == "Exchange" else []
    names = ["image", "coordinate", "value", "array_index?"] if on_image else ["pointer", "value", "result"]
    found = clause.fields(*names, *compare)
    if compare:
        fun = {"Exchange": {"compare": found.pop("compare")}}
    return {f"{on_image or ''}Atomic": {**found, "fun": fun}}


def call(clause):
    arguments = [clause.number(it) for it in range(1, len(clause.operands))]
    return {"Call": {"function": clause.number(0), "arguments": arguments, "result": clause.value("result")}}


def ray_query(clause):
    """Returns a step of a ray query: the query, and the operands of the step."""
    name = clause.name
    found = clause.fields("query", *RAY_QUERY[name].split())
    query = found.pop("query")
    return {"RayQuery": {"query": query, "fun": {name: found} if found else name}}


def subgroup(clause):
    """Returns the statement of the clause on a subgroup, or None."""
    name = clause.name
    if name == "BroadcastFirst" or name in SWAPS:
        mode = {"QuadSwap": SWAPS[name]} if name in SWAPS else name
        return {"SubgroupGather": {"mode": mode, **clause.fields("argument", "result")}}
    if name in GATHERS:
        found = clause.fields("argument", "result", "index")
        return {"SubgroupGather": {"mode": {name: found.pop("index")}, **found}}
    collective = COLLECTIVE.fullmatch(name)
    if collective:
        kinds = {"op": collective[1], "collective_op": collective[2] or "Reduce"}
        return {"SubgroupCollectiveOperation": {**kinds, **clause.fields("argument", "result")}}
    return None


def other(clause):
    """Returns the statement of the clause with operands of several kinds, or None."""
    name = clause.name
    if name == "CooperativeStore":
        return {name: {"target": clause.number(0), "data": tile(clause, 1)}}
    if name == "TraceRay":
        return {"RayPipelineFunction": {name: clause.fields("acceleration_structure", "descriptor", "payload")}}
    if name == "Call":
        return call(clause)
    if ATOMIC.fullmatch(name):
        return atomic(clause)
    return ray_query(clause) if name in RAY_QUERY else subgroup(clause)


def statement(clause):
    """Returns the statement of the clause without blocks, or None."""
    name = clause.name
    if name in UNITS:
        clause.most(0)
        return name
    if name in FIELDS:
        return {name: clause.fields(*FIELDS[name].split())}
    if name in BARRIERS:
        return {name: "WORK_GROUP" if clause.flags is None else clause.flags}
    return other(clause)


class Blocks:
    """Holds the blocks that are open, from the body of the function on."""

    def __init__(self):
        self.open, self.head = [[]], None

    def take(self, clause):
        """Takes a statement, or the head of a block."""
        need(self.head is None, f"a block is wanted before {clause.name}")
        made = statement(clause)
        if made:
            self.open[-1].append(made)
        else:
            self.head = clause

    def brace(self, brace):
        """Opens the block of the head that was taken, or closes the innermost one."""
        if brace == "{":
            need(self.head, "a block has no head")
            self.open.append(self.begun(self.head))
            self.head = None
        else:
            need(len(self.open) > 1 and self.head is None, "a block ends twice")
            self.open.pop()

    def last(self, name, head):
        """Returns the fields of the statement before, which must have this name."""
        last = self.open[-1][-1] if self.open[-1] else None
        need(isinstance(last, dict) and name in last, f"{head} follows no {name}")
        return last[name]

    def begun(self, head):
        """Adds the empty block of the head to its statement, and returns it."""
        name, within, block = head.name, self.open[-1], []
        if name == "Block":
            within.append({"Block": block})
        elif name == "If":
            within.append({"If": {**head.fields("condition"), "accept": block, "reject": []}})
        elif name == "Else":
            self.last("If", name)["reject"] = block
        elif name == "Loop":
            within.append({"Loop": {"body": block, "continuing": [], "break_if": None}})
        elif name == "Continuing":
            self.last("Loop", name).update({"continuing": block, **head.fields("break_if?")})
        elif name == "Switch":
            within.append({"Switch": {**head.fields("selector"), "cases": block}})
        else:
            falls, kind = (CASE.fullmatch(name) or need(False, f"{name} has no block")).groups()
            value = kind if kind == "Default" else {kind.removeprefix("Case") or "U32": head.number(0)}
            within.append({"value": value, "body": block, "fall_through": bool(falls)})
        return block

    def body(self):
        need(len(self.open) == 1 and self.head is None, "a block has no end")
        return self.open[0]
