"""scripts/dev check-unsafe finds unsafe code, and what brings code in, wherever it is."""

import shutil

import pytest

from scripts.checks import check_unsafe
from tests.scripts.copies import ROOT


@pytest.fixture
def planted(tmp_path, monkeypatch):
    """The folders that are searched, with nothing in them but what a test plants: a text at the
    end of a file, of which a copy is there. Returns what is found."""
    for folder in check_unsafe.FOLDERS:
        (tmp_path / folder).mkdir(parents=True)
    monkeypatch.chdir(tmp_path)

    def plant(file, text):
        path = tmp_path / file
        path.parent.mkdir(parents=True, exist_ok=True)
        if (ROOT / file).is_file():
            shutil.copyfile(ROOT / file, path)
        with open(path, "ab") as opened:
            opened.write(text if isinstance(text, bytes) else text.encode())
        return [*check_unsafe.derived()]

    plant.path = tmp_path
    return plant


def test_what_is_there_may_be(monkeypatch):
    monkeypatch.chdir(ROOT)
    assert [*check_unsafe.derived()] == []


@pytest.mark.parametrize("file", check_unsafe.ALLOWED)
def test_what_is_listed_is_there(planted, file):
    assert (ROOT / file).is_file()
    assert planted(file, "") == []


FILES = [
    "crates/programs/src/lib.rt",
    "crates/programs/src/new.rt",
    "crates/programs/specs/Lines.antt",
    "crates/programs/notes.txt",
    "crates/programs/src/no_extension",
    "crates/programs/src/.hidden",
    "crates/programs/src/out/mod.rt",
    "crates/new/src/crates/a/out/lib.rt",
    "crates/gix_validate_c/src/names.rt",
    "crates/note",
    "bindings/rust/src/tag.rs",
    "bindings/rust/src/target/mod.rs",
    "bindings/rust/build.rs",
    "bindings/rust/tests/rows.rs",
    "bindings/rust/gix-validate/drop_in/src/main.rs",
    "bindings/go/many.go",
    "bindings/go/block_amd64.go.go",
    "bindings/go/internal/more/block_amd64.go",
    "bindings/go/README.md",
    "hook/src/main.rs",
    "hook/src/folder/limits.rs",
    "hook/README.md",
]


@pytest.mark.parametrize("file", FILES)
def test_unsafe_is_found_whatever_the_name_of_the_file(planted, file):
    [found] = planted(file, "\nunsafe fn f() {}\n")
    assert found.startswith(f"{file}:")
    assert found.endswith(": has `unsafe`, and may not")


TEXTS = [
    ("unsafe", "unsafe { f() }"),
    ("unsafe", "// unsafe"),
    ("unsafe", "r#unsafe"),
    ("unsafe", b"\xff\x00unsafe\x00\xff"),
    ("unsafe", "#[unsafe(no_mangle)]\nfn private() {}"),
    ("unsafe", '#[unsafe(no_mangle)]\npub extern "C" fn f() {}'),
    ("include", 'include!("../../text");'),
    ("include", 'include ! {"text"}'),
    ("include", 'include/* */!("text");'),
    ("include", "with_name!(include);"),
    ("include_str", 'f!(include_str!("text"));'),
    ("include_bytes", 'f!(include_bytes!("text"));'),
    ("path", '#[path = "text.txt"]\nmod text;'),
    ("path", '#[path="text.txt"]\nmod text;'),
    ("path", '#[cfg_attr(all(), path = "text.txt")]\nmod text;'),
    ("path", '#[cfg_attr(\n    all(),\n    path = r#"text.txt"#\n)]\nmod text;'),
    ("path", '# [ path /* a */ = // b\n "text.txt" ]\nmod text;'),
    ("path", "#[path = $file]\nmod text;"),
    ("path", 'gix-validate = { path = "../elsewhere" }'),
    ("global_asm", 'std::arch::global_asm!("ud2");'),
    ("asm", 'std::arch::asm!("ud2");'),
    ("no_mangle", "#[no_mangle]\npub fn malloc() {}"),
    ("export_name", '#[export_name = "malloc"]\npub fn f() {}'),
    ("link_section", '#[link_section = ".init_array"]\nstatic F: fn() = f;'),
]


@pytest.mark.parametrize("folder", check_unsafe.FOLDERS)
@pytest.mark.parametrize("word, text", TEXTS)
def test_what_is_or_brings_in_unsafe_code_is_found(planted, folder, word, text):
    file = f"{folder}/new/src/new.rs"
    text = text if isinstance(text, bytes) else text.encode()
    found = planted(file, b"\n" + text + b"\n")
    assert any(f"{file}:" in it and f" has `{word}`, and may not" in it for it in found)


@pytest.mark.parametrize(
    "word, text",
    [
        ("unsafe", 'import u "unsafe"'),
        ("unsafe", "import `unsafe`"),
        ("C", 'import "C"'),
        ("C", "import (\n\t`C`\n)"),
        ("plugin", 'import "plugin"'),
        ("syscall", 'import . "syscall"'),
        ("linkname", "//go:linkname f runtime.f"),
        ("replace", "replace a => ../a"),
        ("require", "require (\n\ta v1.0.0\n)"),
    ],
)
def test_what_calls_or_brings_in_other_code_is_found_in_go(planted, word, text):
    file = (
        "bindings/go/go.mod" if word in ("replace", "require") else "bindings/go/a.go"
    )
    [found] = planted(file, f"\n{text}\n")
    assert found.endswith(f" has `{word}`, and may not")


@pytest.mark.parametrize(
    "name",
    ["a.s", "a_amd64.S", "a.c", "a.h", "a.syso", "internal/a.cc", "go.work", "a"],
)
def test_a_file_in_another_language_is_found_in_go(planted, name):
    file = f"bindings/go/{name}"
    assert planted(file, "") == [f"{file} is no file of Go's, and may not be there"]


@pytest.mark.parametrize(
    "text",
    [
        "let path = read(path);",
        "if path == other {}",
        "#[unsafe_code]",
        "fn includes(asmodeus: u8) {}",
    ],
)
def test_other_words_are_not(planted, text):
    assert planted("hook/src/new.rs", f"{text}\n") == []


def test_an_export_may_be_where_c_calls_it(planted):
    text = '\n#[unsafe(no_mangle)]\npub extern "C" fn f() {}\n'
    assert planted("crates/gix_validate_c/src/names.rt", text) == []


def test_a_word_that_one_file_may_have_is_found_in_another(planted):
    text = (ROOT / "bindings/rust/src/block.rs").read_text("utf-8")
    found = planted("bindings/rust/src/blocks.rs", text)
    words = {"unsafe", "global_asm", "include", "include_str"}
    assert {it.split("`")[1] for it in found} == words


def test_a_word_that_a_file_may_not_have_is_found_where_it_may_have_others(planted):
    [found] = planted("bindings/rust/src/block.rs", 'include_bytes!("text");\n')
    assert found.endswith(" has `include_bytes`, and may not")


def test_one_file_of_the_hook_may_have_unsafe_code(planted):
    assert planted("hook/src/limits.rs", "unsafe { f() }\n") == []


@pytest.mark.parametrize("name", ["file", "folder"])
def test_a_link_is_found(planted, name):
    target = planted.path / name
    target.mkdir() if name == "folder" else target.write_text("")
    (planted.path / "hook/link").symlink_to(target)
    assert planted("crates/programs/src/lib.rt", "") == [
        "hook/link is a link, and what it leads to isn't read"
    ]


BUILT = [
    "crates/programs/out/a",
    "bindings/rust/native/a.s",
    "bindings/go/block_amd64.s",
]


@pytest.mark.parametrize("file", BUILT)
def test_what_is_built_is_not_searched(planted, file):
    assert planted(file, "unsafe") == []


@pytest.mark.parametrize("folder", check_unsafe.FOLDERS)
def test_a_folder_that_is_gone_is_an_error(planted, folder):
    shutil.rmtree(planted.path / folder)
    with pytest.raises(FileNotFoundError) as raised:
        planted("note", "")
    assert raised.value.filename == folder
