_ranges() {
    local word=${COMP_WORDS[COMP_CWORD]} before=${COMP_WORDS[COMP_CWORD - 1]} options=""
    COMPREPLY=()
    # The words of --OPTION=VALUE are three.
    if [ "$word" = = ]; then word=""; elif [ "$before" = = ]; then before=${COMP_WORDS[COMP_CWORD - 2]}; fi
    case $before in
        --color) COMPREPLY=($(compgen -W "auto always never" -- "$word")); return ;;
        -g|--grammar) COMPREPLY=($(compgen -W "npm normalized strict" -- "$word")); return ;;
        --base) COMPREPLY=($(compgen -W "0 1 none" -- "$word")); return ;;
        --rule) COMPREPLY=($(compgen -S = -W "any-zero contained-alternative disjoint-sections dropped-alternative duplicate-key empty-alternative ignored-comparator meta-without-range no-match not-canonical not-utf8 npm-differs odd-engine odd-override odd-path odd-section odd-tag odd-version other-version pre-release-bound unmatched-workspace unread-range" -- "$word")); compopt -o nospace 2>/dev/null; return ;;
        any-zero|contained-alternative|disjoint-sections|dropped-alternative|duplicate-key|empty-alternative|ignored-comparator|meta-without-range|no-match|not-canonical|not-utf8|npm-differs|odd-engine|odd-override|odd-path|odd-section|odd-tag|odd-version|other-version|pre-release-bound|unmatched-workspace|unread-range) COMPREPLY=($(compgen -W "off warn error" -- "$word")); return ;;
    esac
    if [ "$COMP_CWORD" = 1 ]; then
        COMPREPLY=($(compgen -W "check asked explain canonical normal min common within overlap scans package reference filter matches best outdated simplify compare sort key increment difference coerce help --help --version" -- "$word"))
        return
    fi
    case ${COMP_WORDS[1]} in
        check) options="--color -j --json --github --sarif -c --canonical --fix --dry-run --exclude --no-ignore --files -0 --null --rule --strict -q --quiet --stdin-filename -h --help -V --version" ;;
        asked) options="--color -j --json -p --pre --exclude --no-ignore -q --quiet --package --apart -h --help -V --version" ;;
        explain) options="--color -j --json -g --grammar -p --pre -h --help -V --version" ;;
        canonical|normal) options="--color -j --json -g --grammar -h --help -V --version" ;;
        min) options="--color -j --json -g --grammar -p --pre -q --quiet -h --help -V --version" ;;
        common) options="--color -j --json -g --grammar -p --pre -q --quiet -h --help -V --version" ;;
        within) options="--color -j --json -g --grammar -p --pre -q --quiet -h --help -V --version" ;;
        overlap) options="--color -j --json -g --grammar -p --pre -q --quiet -h --help -V --version" ;;
        scans) options="--color -j --json -g --grammar -p --pre -q --quiet --where -h --help -V --version" ;;
        package) options="--color -j --json -g --grammar -h --help -V --version" ;;
        reference) options="--color -j --json -h --help -V --version" ;;
        filter|matches) options="--color -j --json -g --grammar -p --pre -q --quiet -v --invert-match -0 --null --tags --tag-prefix --skip-invalid --range -h --help -V --version" ;;
        best) options="--color -j --json -g --grammar -p --pre -q --quiet -0 --null --tags --tag-prefix --skip-invalid --range -h --help -V --version" ;;
        outdated) options="--color -j --json -g --grammar -p --pre -q --quiet -0 --null --tags --tag-prefix --skip-invalid -h --help -V --version" ;;
        simplify) options="--color -j --json -g --grammar -p --pre -0 --null --tags --tag-prefix --skip-invalid -h --help -V --version" ;;
        compare) options="--color -j --json -h --help -V --version" ;;
        sort) options="--color -j --json -r --reverse -0 --null --tags --tag-prefix --skip-invalid -h --help -V --version" ;;
        key) options="--color -j --json -0 --null --tags --tag-prefix --skip-invalid -h --help -V --version" ;;
        increment) options="--color -j --json --preid --base -h --help -V --version" ;;
        difference) options="--color -j --json -q --quiet -h --help -V --version" ;;
        coerce) options="--color -j --json -p --pre --rtl -h --help -V --version" ;;
    esac
    case $word in -*) COMPREPLY=($(compgen -W "$options" -- "$word")); return ;; esac
    case ${COMP_WORDS[1]} in check)
        compopt -o filenames 2>/dev/null
        mapfile -t COMPREPLY < <(compgen -f -- "$word") ;;
        asked)
        compopt -o filenames 2>/dev/null
        mapfile -t COMPREPLY < <(compgen -d -- "$word") ;;
        increment) case $before in major|minor|patch|premajor|preminor|prepatch|prerelease|release) ;; *) COMPREPLY=($(compgen -W "major minor patch premajor preminor prepatch prerelease release" -- "$word")) ;; esac ;;
    esac
}
complete -o default -F _ranges ranges
