"""The families of formulas, logic by logic: FAMILIES[logic][name](n, provable) is the family's formula for n from 1 on, which
the logic proves exactly where `provable`. Each module says why."""

from families import gl, grz, k, k4, kd, kt, s4, s5

FAMILIES = {
    "k": k.FAMILIES,
    "kt": kt.FAMILIES,
    "s4": s4.FAMILIES,
    "s5": s5.FAMILIES,
    "gl": gl.FAMILIES,
    "grz": grz.FAMILIES,
    "k4": k4.FAMILIES,
    "kd": kd.FAMILIES,
}
