"""What the crates of libosb say of its interface, in the words of C, as it stands in their sources."""
from __future__ import annotations

import re
from pathlib import Path

TOP = Path(__file__).resolve().parents[2]
CRATES = (
    "osb_c_types",
    "osb_c",
    "osb_c_instance",
    "osb_c_binding",
    "osb_c_update",
    "osb_c_driver",
    "osb_c_update_driver",
    "osb_c_platform_driver",
    "osb_c_wire",
    "osb_c_binding_wire",
    "osb_c_update_wire",
)

# How the names of an enum's numbers begin in C, if not with the name of the enum.
FRONTS = {
    "Status": "",
    "LastState": "BODY_",
    "ErrorCode": "BODY_",
    "HoldingPhase": "PHASE_",
    "WorkOutcome": "OUTCOME_",
    "Resource": "THERE_",
    "UpdateCall": "CALL_",
    "UpdateLook": "LOOK_",
}
NAMES = {
    "ErrorCode::Other": "BODY_OTHER_ERROR",
    "Rejection::BadRequest": "OUTCOME_REFUSED_400",
    "Rejection::UnprocessableEntity": "OUTCOME_REFUSED_422",
    "UpdateOutcome::Refused(Rejection::BadRequest)": "UPDATE_OUTCOME_REFUSED_400",
    "UpdateOutcome::Refused(Rejection::UnprocessableEntity)": "UPDATE_OUTCOME_REFUSED_422",
    "Allowed::Mode(Mode::Sync)": "ALLOWED_SYNC",
    "Allowed::Mode(Mode::Async)": "ALLOWED_ASYNC",
    "Allowed::Rejected(Rejection::BadRequest)": "ALLOWED_REJECTED_400",
    "Allowed::Rejected(Rejection::UnprocessableEntity)": "ALLOWED_REJECTED_422",
    "Allowed::MaintenanceInfoConflict": "ALLOWED_MAINTENANCE_CONFLICT",
    "UpdateEffect::Update": "EFFECT_UPDATE",
    "UpdateEffect::End": "EFFECT_END_UPDATE",
    "UpdateEffect::Finish": "EFFECT_FINISH_UPDATE",
    "UpdateStage::Conflict": "STAGE_ANSWER",
}
"""Where a name isn't made of the source's by upper case alone: of a whole path, or else of a variant. Those of refusals
are the names of their statuses.
"""

# Numbers that have no name in C. No call gives a driver at TryLock, since a driver begins with the report of its lock.
# A worker's stage has the number of its call.
UNNAMED = {
    "STAGE_TRY_LOCK",
    *(f"{kind}WORKER_STAGE_{stage}" for kind in ("", "UPDATE_") for stage in ("TRY", "UNKNOWN")),
}

# The numbers for none: the function that gives or takes one, or the constant.
NONE_IN = {
    "KIND_NONE": "out_out",
    "MODE_NONE": "mode_from",
    "CALL_NONE": "call_out",
    "CLEAN_UP_NONE": "clean_up_out",
}
NONE_AS = {"STATE_NONE": "NO_STATE", "WORK_NONE": "NO_WORK", "TARGET_NONE": "NO_TARGET"}

PATH = r"\w+::\w+(?:\(\w+::\w+\))?"
EXPORT = re.compile(
    r'#\[unsafe\(no_mangle\)\]\s*pub extern "C" fn (\w+)\(([^)]*)\)(?: -> (\w+))?(.*?)^\{', re.DOTALL | re.MULTILINE
)
STRUCT = re.compile(r"#\[repr\(C\)\]\s*(?:#\[derive[^\n]*\]\s*)?pub struct (\w+) \{(.*?)\n\}", re.DOTALL)
MEMBER = re.compile(r"^\s*(?:pub(?:\(crate\))? )?(\w+): ([^,{}]+),$", re.MULTILINE)


def _sources() -> str:
    """The whole text of the crates, without comments."""
    files = [file for crate in CRATES for file in sorted((TOP / "crates" / crate / "src").rglob("*.rt"))]
    return re.sub(r"^\s*//.*$", "", "\n".join(file.read_text(encoding="utf-8") for file in files), flags=re.MULTILINE)


TEXT = _sources()


def upper(name: str) -> str:
    return re.sub(r"(?<=[a-z0-9])(?=[A-Z])|(?<=[A-Z])(?=[A-Z][a-z])", "_", name).upper()


def c_type(name: str) -> str:
    """The C type of a type that crosses. A list is a pointer and a length (`_parameter`)."""
    array = re.fullmatch(r"\[(\w+); (\d+)\]", name)
    if array:
        return f"{c_type(array[1])} [{array[2]}]"
    if re.fullmatch(r"u\d+", name):
        return f"uint{name[1:]}_t"
    return {"": "void", "bool": "bool", "usize": "size_t"}.get(name, f"struct {upper(name).lower()}")


def _parameter(kind: str) -> list[str]:
    """The C parameters that a parameter of this type is; an allocator is none."""
    if kind == "Global":
        return []
    const = "const " if re.match(r"&(?!mut )", kind) else ""
    plain = re.sub(r"^&(mut )?", "", kind)
    if re.fullmatch(r"\[\w+\]", plain):
        return [f"{const}{c_type(plain[1:-1])} *", "size_t"]
    return [f"{const}{c_type(plain)}{' *' * (plain != kind and plain[0] != '[')}"]


def exports() -> dict[str, str]:
    """Each export: what it gives and takes, and the statuses of its contract, in their order."""
    found = {}
    for name, taken, given, contract in EXPORT.findall(TEXT):
        kinds = [parameter.split(":", 1)[1].strip() for parameter in taken.split(",") if parameter.strip()]
        parameters = ", ".join(part for kind in kinds for part in _parameter(kind))
        statuses = re.search(r"ensures statuses .*?\[\]", contract, re.DOTALL)
        names = [upper(name) for name in re.findall(r"Status\.(\w+)", statuses[0] if statuses else "")]
        found[name] = f"{c_type(given)} ({parameters}): {', '.join(names)}"
    assert TEXT.count("no_mangle") == len(found), "some export has a form that isn't read here"
    return found


def structs() -> dict[str, str]:
    """The members of each struct that crosses."""
    found = {
        c_type(name): "; ".join(f"{c_type(kind)} {member}" for member, kind in MEMBER.findall(body))
        for name, body in STRUCT.findall(TEXT)
    }
    assert TEXT.count("repr(C)") == len(found), "some struct has a form that isn't read here"
    return found


def _body(function: str) -> str:
    found = re.search(rf"fn {function}\b.*?^}}", TEXT, re.DOTALL | re.MULTILINE)
    assert found, f"there is no function {function}"
    return found[0]


def _name(path: str) -> str:
    """The name of a variant in C: of `Body::State(LastState::Failed)` it is that of the inner one."""
    if path in NAMES:
        return NAMES[path]
    inner = re.findall(r"\w+::\w+", path)[-1]
    enum, variant = inner.split("::")
    if enum == "Refusal":
        refused = re.search(rf"{inner} => Status::(\w+),", _body("status_from"))
        assert refused, f"{inner} has no status"
        return upper(refused[1])
    return NAMES.get(inner, FRONTS.get(enum, f"{upper(enum)}_") + upper(variant))


def numbers() -> dict[str, int]:
    """Each number, wherever the sources give it: VARIANT => NUMBER, or NUMBER => Some(VARIANT); and the version. A
    number of an enum is a byte: greater ones are statuses of HTTP.
    """
    found: dict[str, int] = {}
    given = [
        (_name(path), number)
        for path, number in re.findall(rf"(?:Some\()?({PATH})(?: \{{ \.\. \}}|\(_(?:, _)*\))?\)? => (\d+),", TEXT)
    ]
    taken = [(_name(path), number) for number, path in re.findall(rf"\b(\d+) => (?:Some\()+({PATH})\)+,", TEXT)]
    variants = [(name, number) for name, number in given + taken if int(number) < 256 and name not in UNNAMED]
    none: list[tuple[str, str]] = []
    for name, function in NONE_IN.items():
        none += [
            (name, pair[0] or pair[1]) for pair in re.findall(r"None => (\d+),|(\d+) => Some\(None\),", _body(function))
        ]
    for name, constant in NONE_AS.items():
        none += [(name, number) for number in re.findall(rf"\b{constant}: u8 = (\d+);", TEXT)]
    none += [("VERSION", number) for number in re.findall(r"^    (\d+)$", _body("osb_version"), re.MULTILINE)]
    for name, number in variants + none:
        assert found.setdefault(f"OSB_{name}", int(number)) == int(number), f"OSB_{name} has two numbers in the crates"
    return found
