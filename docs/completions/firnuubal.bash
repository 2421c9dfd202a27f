# What a shell completes after firnuubal. Made by tools/gen/completions.py.
_firnuubal() {
    local word=${COMP_WORDS[COMP_CWORD]} words= at
    COMPREPLY=()
    for ((at = 1; at < COMP_CWORD; at++)); do
        [[ ${COMP_WORDS[at]} == -- ]] && return
    done
    case ${COMP_WORDS[1]}:${COMP_WORDS[COMP_CWORD - 1]} in
    tokens:--encoding) words="" ;;
    tokens:--entities) words="" ;;
    tokens:--format) words="lines json" ;;
    links:--encoding) words="" ;;
    links:--entities) words="" ;;
    links:--format) words="lines json" ;;
    links:--base) words="" ;;
    text:--encoding) words="" ;;
    text:--entities) words="" ;;
    clean:--policy) words="" ;;
    clean:--encoding) words="" ;;
    clean:--entities) words="" ;;
    check:--encoding) words="" ;;
    check:--entities) words="" ;;
    check:--format) words="lines json sarif" ;;
    check:--template) words="jinja mustache erb" ;;
    rewrite:--encoding) words="" ;;
    rewrite:--entities) words="" ;;
    rewrite:--set) words="" ;;
    rewrite:--remove) words="" ;;
    rewrite:--drop) words="" ;;
    rewrite:--absolute) words="" ;;
    *)
        ((COMP_CWORD == 1)) && words="tokens links text clean check rewrite --help --version"
        [[ $word == -* ]] && case ${COMP_WORDS[1]} in
        tokens) words="--encoding --fatal --entities --progress --format --with-filename --no-filename --help --version" ;;
        links) words="--encoding --fatal --entities --progress --format --with-filename --no-filename --base --help --version" ;;
        text) words="--encoding --fatal --entities --progress --help --version" ;;
        clean) words="--policy --print-policy --encoding --fatal --entities --progress --help --version" ;;
        check) words="--encoding --fatal --entities --progress --format --template --help --version" ;;
        rewrite) words="--encoding --fatal --entities --progress --set --remove --drop --absolute --noopener --help --version" ;;
        esac
        ;;
    esac
    COMPREPLY=($(compgen -W "$words" -- "$word"))
}
complete -o default -F _firnuubal firnuubal
