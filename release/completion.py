"""Writes the completions of a release for bash, zsh and fish, from release/programs."""

from release import descriptions

# What lists the names that a revision can be.
REVISIONS = "git for-each-ref --format='%(refname:short)' 2>/dev/null"
BASH = """\
# shellcheck shell=bash disable=SC2034,SC2154
# Completion in bash for {name}.

# Sets COMPREPLY for a word, the word before it, and all words before it.
_complete_{plain}() {{
    local cur=$1 before=$2 list options words
    # (An equals sign is a word for bash, and none for the completion of git.)
    case $cur in
    =) cur= ;;
    --*=*) before=${{cur%%=*}} cur=${{cur#*=}} ;;
    esac
    [[ $before != = ]] || before=${{COMP_WORDS[COMP_CWORD - 2]}}
    COMPREPLY=()
    case $before in
{values}    esac
    case " ${{*:3}} " in
{cases}    esac
    [[ $cur != -* ]] || words=$options
    mapfile -t COMPREPLY < <(compgen -W "$words" -- "$cur")
}}

_called_{plain}() {{
    _complete_{plain} "$2" "$3" "${{COMP_WORDS[@]:1:COMP_CWORD-1}}"
}}
complete -o default -F _called_{plain} {name}
"""
BASH_OF_GIT = """
# The completion of git calls this.
_{plain}() {{
    _complete_{plain} "$cur" "$prev" "${{words[@]:1:cword-1}}"
    COMPREPLY=("${{COMPREPLY[@]/%/ }}")
}}
"""
ZSH = """\
#compdef {name}
#description {brief}
# (The completion of git reads the line above.)
{body}"""
ZSH_REVISIONS = """\
_{name}_revisions() {{
    compadd -- ${{(f)"$({revisions})"}}
}}
"""
FISH_REVISIONS = f"({REVISIONS})"


def quoted(text):
    """A word of zsh."""
    return "'" + text.replace("'", "'\\''") + "'"


def in_fish(text):
    """A word of fish."""
    return "'" + text.replace("\\", "\\\\").replace("'", "\\'") + "'"


def names_of(options):
    """The names of options, without that which ends them."""
    names = (it for option in options for it in descriptions.names_of(option)[0])
    return [it for it in names if it != "--"]


def words_of(described):
    """The kinds or subcommands that come first."""
    return described.get("words") or described.get("subcommands") or []


def contexts(described):
    """The options of each subcommand, or those of the program."""
    common = described["options"]
    own = described.get("subcommands", [])
    return {it["word"]: [*it["options"], *common] for it in own}


# bash
def bash(described):
    plain = described["name"].replace("-", "_")
    options = [*described["options"], *sum(contexts(described).values(), [])]
    values = {it["option"]: bash_value(it) for it in options if "values" in it}
    parts = {
        "name": described["name"],
        "plain": plain,
        "values": "".join(values.values()) or "    *) ;;\n",
        "cases": bash_cases(described),
    }
    of_git = BASH_OF_GIT if plain.startswith("git_") else ""
    return (BASH + of_git).format(**parts)


def bash_value(option):
    """What completes the value of an option."""
    values, [name] = option["values"], descriptions.names_of(option)[0]
    lines = []
    if values == "directories":
        lines = ['mapfile -t COMPREPLY < <(compgen -d -- "$cur")']
    elif values != "text":
        words = f"""-P "$list" -W '{" ".join(values)}' -- "${{cur##*,}}\""""
        lines = [
            'list=${cur%"${cur##*,}"}',
            f"mapfile -t COMPREPLY < <(compgen {words})",
        ]
    lines = "".join(f"        {it}\n" for it in [*lines, "return", ";;"])
    return f"    {name})\n{lines}"


def bash_cases(described):
    """Which options and other words there are, after the words that were typed."""
    own = contexts(described)
    cases = ""
    for it in words_of(described):
        options = " ".join(names_of(own.get(it["word"], described["options"])))
        cases += f"    *' {it['word']} '*) options='{options}' words= ;;\n"
    first = "'" + " ".join(it["word"] for it in words_of(described)) + "'"
    if described["complete"] == "revisions":
        first = f'"$({REVISIONS})"'
    options = " ".join(names_of(described["options"]))
    return f"{cases}    *) options='{options}' words={first} ;;\n"


# zsh
def zsh(described):
    name, words = described["name"], words_of(described)
    specs = sum(map(zsh_option, described["options"]), [])
    if words:
        listed = " ".join(map(zsh_word, words))
        specs.append(f"1:word:(({listed}))")
    body = ""
    if described["complete"] == "revisions":
        body = ZSH_REVISIONS.format(name=name, revisions=REVISIONS)
        specs.append(f"*:revision:_{name}_revisions")
    elif described["complete"] == "words":
        specs.append("*:name:_files")
    elif described["complete"] == "subcommands":
        specs.append("*:: :->rest")
    body += zsh_arguments("-C" if contexts(described) else "-S", specs)
    if contexts(described):
        body = f"local state\n{body}[[ $state == rest ]] || return\ncase $words[1] in\n"
        for word, options in contexts(described).items():
            own = zsh_arguments("-S", sum(map(zsh_option, options), []))
            body += f"{word})\n{own};;\n"
        body += "esac\n"
    return ZSH.format(name=name, brief=described["brief"], body=body)


def zsh_arguments(first, specs):
    lines = "".join(f" \\\n    {quoted(it)}" for it in specs)
    return f"_arguments {first}{lines}\n"


def zsh_word(word):
    text = descriptions.first_sentence(word["text"])
    return f'{word["word"]}\\:"{text}"'


def zsh_option(option):
    """A line for each name. (Of two names each excludes the other.)"""
    names, value = descriptions.names_of(option)
    text = descriptions.first_sentence(option["text"]).replace(":", "\\:")
    values, action = option.get("values"), " "
    if values == "directories":
        action = "_files -/"
    elif values != "text":
        action = f"_values -s , {value} {' '.join(values or [])}"
    end = f"=[{text}]:{value}:{action}" if value else f"[{text}]"
    others = f"({' '.join(names)})"
    return [others + name + end for name in names if name != "--"]


# fish
def fish(described):
    name = described["name"]
    words = " ".join(it["word"] for it in words_of(described))
    lines = [f"# Completion in fish for {name}."]
    first = f"-n 'not __fish_seen_subcommand_from {words}'"
    for it in words_of(described):
        text = in_fish(descriptions.first_sentence(it["text"]))
        lines.append(f"complete -c {name} -f {first} -a {it['word']} -d {text}")
    if described["complete"] == "revisions":
        lines.append(f"complete -c {name} -f -a {in_fish(FISH_REVISIONS)}")
    options = (it for it in described["options"] if it["option"] != "--")
    lines += [f"complete -c {name} {fish_option(it)}" for it in options]
    for it in described.get("subcommands", []):
        seen = f"-n '__fish_seen_subcommand_from {it['word']}'"
        lines += [
            f"complete -c {name} {seen} {fish_option(of)}" for of in it["options"]
        ]
    return "".join(f"{it}\n" for it in lines)


def fish_option(option):
    names, value = descriptions.names_of(option)
    words = [f"-{'l' if it[1] == '-' else 's'} {it.lstrip('-')}" for it in names]
    values = option.get("values")
    if values == "directories":
        words.append("-x -a '(__fish_complete_directories)'")
    elif value:
        listed = "" if values == "text" else f"(__fish_append , {' '.join(values)})"
        words.append(f"-x -a {in_fish(listed)}" if listed else "-x")
    return " ".join(
        [*words, "-d", in_fish(descriptions.first_sentence(option["text"]))]
    )


# The directories of a release in which the shells look, the name of a program's file, and
# what writes it.
PLACES = {
    "share/bash-completion/completions": ("{}", bash),
    "share/zsh/site-functions": ("_{}", zsh),
    "share/fish/vendor_completions.d": ("{}.fish", fish),
}


def write(release):
    """Writes the completions of all programs into the directory of a release."""
    described = [it for it in descriptions.read_all().values() if it["section"] == 1]
    for directory, (name, written) in PLACES.items():
        (release / directory).mkdir(parents=True, exist_ok=True)
        for it in described:
            file = release / directory / name.format(it["name"])
            file.write_text(written(it), "utf-8")
