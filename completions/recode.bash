# Completes the labels of recode in bash: the names of encodings, and then the other labels.
# Written by scripts/make-sources from data/templates: change the text there, and not this file.
_recode_labels='
    utf-8 ibm866 iso-8859-2 iso-8859-3 iso-8859-4 iso-8859-5 iso-8859-6 iso-8859-7 iso-8859-8
    iso-8859-8-i iso-8859-10 iso-8859-13 iso-8859-14 iso-8859-15 iso-8859-16 koi8-r koi8-u macintosh
    windows-874 windows-1250 windows-1251 windows-1252 windows-1253 windows-1254 windows-1255
    windows-1256 windows-1257 windows-1258 x-mac-cyrillic gbk gb18030 big5 euc-jp iso-2022-jp
    shift_jis euc-kr utf-16be utf-16le x-user-defined unicode-1-1-utf-8 unicode11utf8 unicode20utf8
    utf8 x-unicode20utf8 866 cp866 csibm866 csisolatin2 iso-ir-101 iso8859-2 iso88592 iso_8859-2
    iso_8859-2:1987 l2 latin2 csisolatin3 iso-ir-109 iso8859-3 iso88593 iso_8859-3 iso_8859-3:1988
    l3 latin3 csisolatin4 iso-ir-110 iso8859-4 iso88594 iso_8859-4 iso_8859-4:1988 l4 latin4
    csisolatincyrillic cyrillic iso-ir-144 iso8859-5 iso88595 iso_8859-5 iso_8859-5:1988 arabic
    asmo-708 csiso88596e csiso88596i csisolatinarabic ecma-114 iso-8859-6-e iso-8859-6-i iso-ir-127
    iso8859-6 iso88596 iso_8859-6 iso_8859-6:1987 csisolatingreek ecma-118 elot_928 greek greek8
    iso-ir-126 iso8859-7 iso88597 iso_8859-7 iso_8859-7:1987 sun_eu_greek csiso88598e
    csisolatinhebrew hebrew iso-8859-8-e iso-ir-138 iso8859-8 iso88598 iso_8859-8 iso_8859-8:1988
    visual csiso88598i logical csisolatin6 iso-ir-157 iso8859-10 iso885910 l6 latin6 iso8859-13
    iso885913 iso8859-14 iso885914 csisolatin9 iso8859-15 iso885915 iso_8859-15 l9 cskoi8r koi koi8
    koi8_r koi8-ru csmacintosh mac x-mac-roman dos-874 iso-8859-11 iso8859-11 iso885911 tis-620
    cp1250 x-cp1250 cp1251 x-cp1251 ansi_x3.4-1968 ascii cp1252 cp819 csisolatin1 ibm819 iso-8859-1
    iso-ir-100 iso8859-1 iso88591 iso_8859-1 iso_8859-1:1987 l1 latin1 us-ascii x-cp1252 cp1253
    x-cp1253 cp1254 csisolatin5 iso-8859-9 iso-ir-148 iso8859-9 iso88599 iso_8859-9 iso_8859-9:1989
    l5 latin5 x-cp1254 cp1255 x-cp1255 cp1256 x-cp1256 cp1257 x-cp1257 cp1258 x-cp1258
    x-mac-ukrainian chinese csgb2312 csiso58gb231280 gb2312 gb_2312 gb_2312-80 iso-ir-58 x-gbk
    big5-hkscs cn-big5 csbig5 x-x-big5 cseucpkdfmtjapanese x-euc-jp csiso2022jp csshiftjis ms932
    ms_kanji shift-jis sjis windows-31j x-sjis cseuckr csksc56011987 iso-ir-149 korean
    ks_c_5601-1987 ks_c_5601-1989 ksc5601 ksc_5601 windows-949 unicodefffe csunicode iso-10646-ucs-2
    ucs-2 unicode unicodefeff utf-16
'

_recode() {
    local IFS=$' \t\n' line word
    # In COMP_WORDS the colon of a label is a word by itself.
    line=${COMP_WORDS[*]:1:COMP_CWORD}
    line=${line// :/:}
    line=${line//: /:}
    COMPREPLY=()
    if [[ $line == *' '*' '* ]]; then
        return 0 # a third word is a file of a redirection
    fi
    word=${line##* }
    word=${word,,}
    mapfile -t COMPREPLY < <(compgen -W "$_recode_labels" -- "$word")
    if [[ $COMP_WORDBREAKS == *:* ]]; then
        COMPREPLY=("${COMPREPLY[@]#"${word%"${word##*:}"}"}")
    fi
}
complete -o nosort -o default -F _recode recode
