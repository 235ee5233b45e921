# Completions of partmem, framemap and partcheck for bash.
_partmem() {
    local options='--order --superblocks --tenants --only --own --tally --help --version'
    case ${1##*/} in
        framemap) options='--order --superblocks --tenants --only --columns --figures --help --version' ;;
        partcheck) options='--order --superblocks --tenants --help --version' ;;
    esac
    COMPREPLY=()
    case $3 in
        --order) mapfile -t COMPREPLY < <(compgen -W '3 4 5 6 7 8' -- "$2") ;;
        --superblocks | --tenants | --only | --own | --columns) ;;
        *)
            case $2 in
                -*) mapfile -t COMPREPLY < <(compgen -W "$options" -- "$2") ;;
                *) mapfile -t COMPREPLY < <(compgen -f -- "$2") ;;
            esac
            ;;
    esac
}
complete -o filenames -F _partmem partmem framemap partcheck
