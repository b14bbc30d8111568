# made by tools/manual from the output of 'bucketd help': don't edit it by hand

_bucketd() {
    local word=${COMP_WORDS[COMP_CWORD]} before=${COMP_WORDS[COMP_CWORD - 1]} words= option
    COMPREPLY=()
    # bash takes '--file=x' for three words.
    if [ "$word" = = ]; then
        word=
    elif [ "$before" = = ]; then
        before=${COMP_WORDS[COMP_CWORD - 2]}
    fi
    if [ "$COMP_CWORD" -gt 1 ]; then
        case $before in
        --file | --to | --from | --socket | --operator-socket | --spool | --operator-secret-file | --secret-file)
            compopt -o filenames 2>/dev/null
            mapfile -t COMPREPLY < <(compgen -f -- "$word")
            return
            ;;
        --at | --block-size | --cache-blocks | --cache-bytes | --clock-leap | --clock-step | --connections | --count | --digest | --keep-garbage | --limit | --max-body | --min-part | --name | --operator-port | --port | --quota | --secret | --socket-group | --tenant | --timeout)
            return
            ;;
        esac
        case ${COMP_WORDS[1]} in
        script) words=" --block-size --min-part --max-body --cache-blocks --cache-bytes --digest --help " ;;
        init) words=" --file --min-part --max-body --digest --help " ;;
        tenant-add) words=" --tenant --quota --file --operator-port --operator-socket --operator-secret-file --at --clock-leap --force --help " ;;
        quota) words=" --tenant --quota --file --operator-port --operator-socket --operator-secret-file --at --clock-leap --force --help " ;;
        tenant-remove) words=" --tenant --with-objects --file --operator-port --operator-socket --operator-secret-file --at --clock-leap --force --help " ;;
        key-add) words=" --tenant --name --secret --file --operator-port --operator-socket --operator-secret-file --at --clock-leap --force --help " ;;
        key-remove) words=" --tenant --name --file --operator-port --operator-socket --operator-secret-file --at --clock-leap --force --help " ;;
        keys) words=" --tenant --file --operator-port --operator-socket --operator-secret-file --at --clock-leap --force --help " ;;
        usage) words=" --tenant --file --operator-port --operator-socket --operator-secret-file --at --clock-leap --force --help " ;;
        tenants) words=" --file --operator-port --operator-socket --operator-secret-file --at --clock-leap --force --help " ;;
        report) words=" --file --operator-port --operator-socket --operator-secret-file --at --clock-leap --force --help " ;;
        check) words=" --file --help " ;;
        sweep) words=" --limit --file --operator-port --operator-socket --operator-secret-file --at --clock-leap --force --help " ;;
        backup) words=" --to --file --operator-port --operator-socket --operator-secret-file --help " ;;
        export) words=" --file --tenant --to --help " ;;
        import) words=" --file --from --clock-leap --force --help " ;;
        serve) words=" --file --port --socket --socket-group --count --log --timeout --connections --spool --clock-leap --clock-step --force --block-size --cache-blocks --cache-bytes --keep-garbage --operator-port --operator-socket --operator-secret-file --help " ;;
        tell) words=" --port --socket --secret-file --help " ;;
        stop) words=" --operator-port --operator-socket --operator-secret-file --help " ;;
        health) words=" --operator-port --operator-socket --operator-secret-file --help " ;;
        metrics) words=" --operator-port --operator-socket --operator-secret-file --help " ;;
        clock-accept) words=" --operator-port --operator-socket --operator-secret-file --help " ;;
        help) [ "$COMP_CWORD" -gt 2 ] || words=" script init tenant-add quota tenant-remove key-add key-remove keys usage tenants report check sweep backup export import serve tell stop health metrics clock-accept " ;;
        esac
        # No option comes twice.
        for option in "${COMP_WORDS[@]:2:COMP_CWORD - 2}"; do
            words=${words/ $option / }
        done
    else
        words=" script init tenant-add quota tenant-remove key-add key-remove keys usage tenants report check sweep backup export import serve tell stop health metrics clock-accept help --help --version "
    fi
    mapfile -t COMPREPLY < <(compgen -W "$words" -- "$word")
}
complete -F _bucketd bucketd
