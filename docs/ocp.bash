# Completion of ocp and ./ocp for bash:  . docs/ocp.bash
_ocp() {
    local words command=${COMP_WORDS[1]}
    [ "$command" != try ] || [ "$COMP_CWORD" = 2 ] || command=${COMP_WORDS[2]}
    case $command in
        asm) words='--profile --help' ;;
        bench) words='--port --words --program --help' ;;
        build) words='--cores --times --chain --help' ;;
        check) words='--profile --pool --help' ;;
        dist) words='--to --help' ;;
        install) words='--help' ;;
        library) words='--target --cores --unproved --help' ;;
        list) words='--help' ;;
        live) words='--profile --apid --pool --journal --words --help' ;;
        run) words='--profile --apid --pool --journal --help' ;;
        test) words='--jobs --help' ;;
        try) words='asm check list run help --help --version' ;;
        uninstall) words='--help' ;;
        help) words='asm check list run' ;;
        *) words='' ;;
    esac
    [ "$COMP_CWORD" != 1 ] || words='asm check list run help bench build dist install library live test try uninstall --help --version'
    mapfile -t COMPREPLY < <(compgen -W "$words" -- "${COMP_WORDS[COMP_CWORD]}")
}
complete -o default -F _ocp ocp ./ocp
