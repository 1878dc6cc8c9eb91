"""Lets `rt lib` take the libraries that `rt ci` has proved in the same run, in place of proving them a second time.

rt ci leaves each library in crates/NAME/out/rlib without a stamp, and a library without a stamp is proved and built anew. A stamp is a sum
of all that a library is made of, with those below it, as the kit's own command reckons it. It is written only where that sum is the same
after the run as before it, and where the run has left the library; else nothing is stamped, and all of them are proved again."""
import os
import shutil

import kit


def library_of(crate):
    """The folder of the crate's library and its stamp."""
    return os.path.dirname(crate.rlib)


def begin(crates, top):
    """Takes away each library that earlier runs have left, with its stamp, and returns the stamps of those below the crate `top`."""
    for crate in crates.values():
        shutil.rmtree(library_of(crate), ignore_errors=True)
    return {it.name: it.stamp() for it in crates[top].below()}


def unclear(crates, before, began):
    """Why a library of these isn't surely the one that the run has proved, or None."""
    for crate in crates:
        if not os.path.isdir(crate.rlib):
            return f"{crate.name} has no library"
        if os.path.getmtime(crate.rlib) < began:
            return f"{crate.name}'s library is older than the run"
        if os.path.exists(f"{library_of(crate)}/stamp"):
            return f"{crate.name} has a stamp that this run has not written"
        if crate.stamp() != before.get(crate.name):
            return f"the sources of {crate.name}, or of a crate below it, have changed since the run began"
    return None


def write(crates, top, before, began):
    """Stamps the libraries below the crate `top`. Returns why none was stamped, or None."""
    below = crates[top].below()
    why = unclear(below, before, began)
    for crate in [] if why else below:
        with open(f"{library_of(crate)}/stamp", "w", encoding="utf-8") as out:
            out.write(before[crate.name])
    lacking = [it.name for it in below if not why and not it.is_built()]
    return why or (f"the kit doesn't take the stamp of {lacking[0]}" if lacking else None)


def built(top="pdt_c"):
    """The crates below this one that are proved and built, and those that aren't."""
    below = kit.crates_as_now()[top].below()
    return [it.name for it in below if it.is_built()], [it.name for it in below if not it.is_built()]
