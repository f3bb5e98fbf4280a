# Completion of oab's commands, options, records and names of tags for bash.
_oab_commands="check list columns show get find why export import index set clear insert delete extract apply"
_oab_names="
    OfflineAddressBookName OfflineAddressBookDistinguishedName OfflineAddressBookSequence
    OfflineAddressBookContainerGuid AddressBookHierarchicalRootDepartment EmailAddress SmtpAddress DisplayName
    AddressBookPhoneticDisplayName Account Surname AddressBookPhoneticSurname GivenName AddressBookPhoneticGivenName
    AddressBookProxyAddresses OfficeLocation DisplayType ObjectType SendRichInfo BusinessTelephoneNumber Initials
    StreetAddress Locality StateOrProvince PostalCode Country Title CompanyName AddressBookPhoneticCompanyName
    Assistant DepartmentName AddressBookPhoneticDepartmentName AddressBookTargetAddress HomeTelephoneNumber
    Business2TelephoneNumbers Home2TelephoneNumbers PrimaryFaxNumber MobileTelephoneNumber AssistantTelephoneNumber
    PagerTelephoneNumber Comment UserCertificate UserX509Certificate AddressBookX509Certificate
    AddressBookHomeMessageDatabase AddressBookDisplayNamePrintable DisplayTypeEx AddressBookSeniorityIndex
    AddressBookHierarchicalIsHierarchicalGroup AddressBookObjectGuid AddressBookSenderHintTranslations
    AddressBookDeliveryContentLength AddressBookModerationEnabled AddressBookDistributionListMemberCount
    AddressBookDistributionListExternalMemberCount AddressBookMember AddressBookIsMemberOfDistributionList
    OfflineAddressBookTruncatedProperties ThumbnailPhoto SpokenName AddressBookAuthorizedSenders
    AddressBookUnauthorizedSenders AddressBookDistributionListMemberSubmitAccepted
    AddressBookDistributionListMemberSubmitRejected AddressBookDistributionListRejectMessagesFromDLMembers
    AddressBookManager
"

_oab() {
    local word=${COMP_WORDS[COMP_CWORD]} before=${COMP_WORDS[COMP_CWORD - 1]} command='' at=0 i
    for ((i = 1; i < COMP_CWORD; i++)); do
        case ${COMP_WORDS[i]} in
        -o | -t | --index | --like | --flags) ((i++)) ;;
        -*) ;;
        *) if [ -z "$command" ]; then command=${COMP_WORDS[i]}; else ((at++)); fi ;;
        esac
    done
    local all="-o -q --help" options
    case $command in
    check | list) options="$all --json" ;;
    columns | why) options="$all --json --names" ;;
    show) options="$all --json --names --index" ;;
    get) options="$all --json --raw -e --index" ;;
    find) options="$all --json --names -i -t" ;;
    export) options="$all -t" ;;
    import) options="$all -n --like --flags" ;;
    set) options="$all --raw -n" ;;
    clear | insert | delete | apply | index) options="$all -n" ;;
    extract) options=$all ;;
    *) options="--help --version" ;;
    esac
    if [ "$before" = -t ]; then
        local earlier=''
        [[ $word != *,* ]] || earlier=${word%,*},
        mapfile -t COMPREPLY < <(compgen -P "$earlier" -W "$_oab_names" -- "${word##*,}")
    elif [[ $before =~ ^(-o|--index|--like)$ ]]; then
        compopt -o filenames
        mapfile -t COMPREPLY < <(compgen -f -- "$word")
    elif [[ $word == -* ]]; then
        mapfile -t COMPREPLY < <(compgen -W "$options" -- "$word")
    elif [ -z "$command" ]; then
        mapfile -t COMPREPLY < <(compgen -W "$_oab_commands" -- "$word")
    elif [ "$at" = 2 ] && [[ $command =~ ^(get|why|set|clear)$ ]]; then
        mapfile -t COMPREPLY < <(compgen -W "$_oab_names" -- "$word")
    elif [ "$at" = 1 ] && [[ $command =~ ^(show|get|why|set|clear|extract)$ ]]; then
        mapfile -t COMPREPLY < <(compgen -W "header" -- "$word")
    else
        compopt -o filenames
        mapfile -t COMPREPLY < <(compgen -f -- "$word")
    fi
}
complete -F _oab oab
