# Completions of pevghazo for bash; `pevghazo completions bash` prints them.
_pevghazo() {
    local word before prefix='' help='' area='' name='' i skip=''
    COMPREPLY=()
    # `--name=value` comes as three words where `=` is a word break, and as one where it is not.
    local -a all=()
    for ((i = 1; i <= COMP_CWORD; i++)); do
        word=${COMP_WORDS[i]}
        if [[ $word == = && ${COMP_WORDS[i-1]} == --* ]]; then
            ((i < COMP_CWORD)) || all+=('')
        elif [[ $word == --*=* ]]; then all+=("${word%%=*}" "${word#*=}")
        else all+=("$word"); fi
    done
    [[ $word == --*=* ]] && prefix=${word%%=*}=
    word=${all[-1]}
    before=''
    ((${#all[@]} < 2)) || before=${all[-2]}
    unset 'all[-1]'
    for i in "${all[@]}"; do
        if [[ -n $skip ]]; then skip=''; continue; fi
        case $i in
            --state|--wait|--allowance|--group|--key|--message|--metadata|--metadata-text|--out|--in|--from|--metadata-out|--mark|--packets|--format|--packet|--code|--counter|--nonce|--expect|--out-dir|--windows|--year|--prices) skip=1 ;;
            -*) ;;
            office|group|sane|sae|pool|season|till) [[ -z $area$name ]] && area=$i || name=${name:-$i} ;;
            help) [[ -z $help$area$name ]] && help=1 || name=${name:-$i} ;;
            *) name=${name:-$i} ;;
        esac
    done
    case "$area $name $before" in
        'sae open --format') mapfile -t COMPREPLY < <(compgen -P "$prefix" -W 'text csv' -- "$word"); return ;;
        'season show --format') mapfile -t COMPREPLY < <(compgen -P "$prefix" -W 'text html' -- "$word"); return ;;
    esac
    case $before in
        --format) mapfile -t COMPREPLY < <(compgen -P "$prefix" -W 'text csv html' -- "$word"); return ;;
        --state|--key|--message|--metadata|--out|--in|--metadata-out|--nonce|--windows|--prices) compopt -o filenames; mapfile -t COMPREPLY < <(compgen -P "$prefix" -f -- "$word"); return ;;
        --out-dir) compopt -o filenames; mapfile -t COMPREPLY < <(compgen -P "$prefix" -d -- "$word"); return ;;
        --wait|--allowance|--group|--metadata-text|--from|--mark|--packets|--packet|--code|--counter|--expect|--year) return ;;
    esac
    local words
    [[ -n $help && -n $name ]] && return
    case "$area $name $word" in
        'sae open -'*) ;;
        'sae open '*) compopt -o filenames; mapfile -t COMPREPLY < <(compgen -f -- "$word"); return ;;
    esac
    case "$area $name" in
        ' ') words='office group sane sae pool season till keygen demo help --help --version' ;;
        'office ') words='create day open-group seal open resend reread forget nearly-full codes check-code show --help' ;;
        'group ') words='start seal open resend reread forget codes check-code show --help' ;;
        'sane ') words='start seal open resend reread forget show --help' ;;
        'sae ') words='start open seal show --help' ;;
        'pool ') words='create add show find --help' ;;
        'season ') words='first-day show --help' ;;
        'till ') words='create charge receipt show prices --help' ;;
        'office create') words='--state --wait --help' ;;
        'office day') words='--state --allowance --wait --restore --help' ;;
        'office open-group') words='--state --group --key --replace --reuse-key --wait --restore --help' ;;
        'office seal') words='--state --group --message --metadata --metadata-text --out --wait --restore --help' ;;
        'office open') words='--state --in --from --out --metadata-out --wait --restore --help' ;;
        'office resend') words='--state --group --out --wait --restore --help' ;;
        'office reread') words='--state --group --out --metadata-out --wait --restore --help' ;;
        'office forget') words='--state --group --envelope --wait --restore --help' ;;
        'office nearly-full') words='--state --mark --all --wait --restore --help' ;;
        'office codes') words='--state --group --packets --format --out --wait --restore --help' ;;
        'office check-code') words='--state --group --packet --code --wait --restore --help' ;;
        'office show') words='--state --json --wait --restore --help' ;;
        'group start') words='--state --group --key --replace --reuse-key --wait --restore --help' ;;
        'group seal') words='--state --message --metadata --metadata-text --out --wait --restore --help' ;;
        'group open') words='--state --in --from --out --metadata-out --wait --restore --help' ;;
        'group resend') words='--state --out --wait --restore --help' ;;
        'group reread') words='--state --out --metadata-out --wait --restore --help' ;;
        'group forget') words='--state --envelope --wait --restore --help' ;;
        'group codes') words='--state --packets --format --out --wait --restore --help' ;;
        'group check-code') words='--state --packet --code --wait --restore --help' ;;
        'group show') words='--state --json --wait --restore --help' ;;
        'sane start') words='--state --group --key --counter --nonce --expect --replace --wait --restore --help' ;;
        'sane seal') words='--state --message --metadata --metadata-text --out --wait --restore --help' ;;
        'sane open') words='--state --in --from --out --metadata-out --wait --restore --help' ;;
        'sane resend') words='--state --out --wait --restore --help' ;;
        'sane reread') words='--state --out --metadata-out --wait --restore --help' ;;
        'sane forget') words='--state --envelope --wait --restore --help' ;;
        'sane show') words='--state --json --wait --restore --help' ;;
        'sae start') words='--state --group --key --counter --nonce --expect --replace --wait --restore --help' ;;
        'sae open') words='--state --out-dir --format --wait --restore --help' ;;
        'sae seal') words='--state --message --metadata --metadata-text --out --wait --restore --help' ;;
        'sae show') words='--state --json --wait --restore --help' ;;
        'pool create') words='--state --wait --help' ;;
        'pool add') words='--state --in --windows --all-or-none --wait --restore --help' ;;
        'pool show') words='--state --runs --csv --json --wait --restore --help' ;;
        'pool find') words='--state --wait --restore --help' ;;
        'season first-day') words='--windows --in --help' ;;
        'season show') words='--windows --year --format --out --help' ;;
        'till create') words='--state --wait --help' ;;
        'till charge') words='--state --prices --in --format --out --all-or-none --again --wait --restore --help' ;;
        'till receipt') words='--state --format --out --wait --restore --help' ;;
        'till show') words='--state --json --wait --restore --help' ;;
        'till prices') words='--prices --help' ;;
        ' keygen') words='--out --help' ;;
        ' demo') words='--help' ;;
        ' help') words='--help' ;;
        *) words='' ;;
    esac
    [[ -n $help ]] && words=${words%% --*}
    mapfile -t COMPREPLY < <(compgen -W "$words" -- "$word")
}
complete -F _pevghazo pevghazo
