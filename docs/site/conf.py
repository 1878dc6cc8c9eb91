"""The site of the documentation, by Sphinx: the pages of docs by myst-parser, and the package for Python by its docstrings.

tools/docs lays the pages out in out/docs-source as they are in the repository, with those of this folder at the top, and builds them from
there. A link to a file or a folder of the repository that is no page becomes its text; one to nothing is a warning, and so a failure.
"""
import re
import sys
from fnmatch import fnmatch
from pathlib import Path

TOP = Path(__file__).resolve().parents[2]
sys.path.insert(0, str(TOP / "bindings/python"))

project = "Narthexmace"
version = release = (TOP / "VERSION").read_text().strip()
author = copyright = "the Narthexmace maintainers"

extensions = ["myst_parser", "sphinx.ext.autodoc", "numpydoc"]
root_doc = "index"
html_theme = "alabaster"
html_theme_options = {"description": "An ordered table under snapshot isolation", "page_width": "1100px", "show_powered_by": False}
html_show_sphinx = False
html_show_copyright = False
html_copy_source = False

myst_heading_anchors = 4
# a page begins with its title; no reader of a page misses a level between two of its headings
suppress_warnings = ["myst.header"]

autodoc_member_order = "bysource"
autodoc_typehints = "none"
# a class without its constructor, which the package calls
autodoc_class_signature = "separated"
autodoc_default_options = {
    "members": True,
    "show-inheritance": True,
    "special-members": "__getitem__, __contains__, __len__, __iter__, __array__, __arrow_c_stream__, __arrow_c_schema__",
}
numpydoc_show_class_members = False
numpydoc_attributes_as_param_list = True

#: A link of Markdown, with its text and its target.
LINK = re.compile(r"(?<!!)\[([^\]]*)\]\(([^)#:]+)(#[^)]*)?\)")


def without_links_to_sources(app, docname, source):
    """Makes of a link to what is in the repository, and is no page, its text."""
    here = Path(docname).parent

    def text_of(link):
        target = (TOP / here / link[2]).resolve()
        is_page = target.suffix == ".md" and (Path(app.srcdir) / here / link[2]).is_file()
        return link[0] if is_page or not target.exists() else link[1]

    source[0] = LINK.sub(text_of, source[0])


def with_the_rest(app, docname, source):
    """Puts in the place of docs/* in the index the pages that no other line of it has."""
    if docname != root_doc:
        return
    lines = re.findall(r"(?m)^   (docs/\S+)$", source[0])
    pages = sorted(f"docs/{it.stem}" for it in Path(app.srcdir, "docs").glob("*.md"))
    rest = [page for page in pages if not any(fnmatch(page, line) for line in lines if line != "docs/*")]
    source[0] = source[0].replace("   docs/*\n", "".join(f"   {page}\n" for page in rest))


def without_fields(app, what, name, it, skip, options):
    """Leaves out the fields of a named tuple: its docstring has them as its attributes."""
    return True if type(it).__name__ == "_tuplegetter" else None


def setup(app):
    app.connect("source-read", without_links_to_sources)
    app.connect("source-read", with_the_rest)
    app.connect("autodoc-skip-member", without_fields)
