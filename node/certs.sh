#!/bin/sh
# Certificates of one organisation, by openssl. Each organisation makes its own, and keeps every ca.key offline.
#
#     regtuma-certs ca DIR ORG             its three authorities, which others get: DIR/ca.pem for its clients and its node,
#                                          DIR/member.ca.pem for its member of etcd, DIR/etcd.ca.pem for those who ask etcd
#     regtuma-certs node DIR ORG HOST..    its node, for these names and addresses: DIR/node.pem, by which it answers and asks other
#                                          nodes, and DIR/etcd.pem, by which it and its operator ask etcd
#     regtuma-certs member DIR ORG HOST..  its member of etcd: DIR/member.pem
#     regtuma-certs client DIR ORG NAME    a client ORG/NAME: DIR/NAME.pem
#     regtuma-certs trust DIR FOLDER..     whom a machine trusts: the organisation whose authorities lie in DIR, and those of these folders.
#                                          DIR/proxy.ca.pem is for clients and nodes. In DIR/etcd members.pem is for members,
#                                          callers.pem for those who ask etcd, and own.pem for its door and its operator
#     regtuma-certs show CERT.PEM          whose certificate it is, by which authority, and until when
#
# Beside each certificate lies its key, which is its owner's alone (0600). DAYS says how long a certificate lasts: 825 by default,
# a client's 90. An authority lasts ten years, and makes no other one; it is never written over. A certificate that is made again
# takes the place of the old one, with a new key. What etcd is asked by has no common name, which etcd may take for a user.
set -eu
umask 077
# The lines by which openssl prints the version and extensions of an authority that makes no other one, sorted, each key's digest as ID.
EXTENSIONS="CA:TRUE, pathlen:0
Certificate Sign, CRL Sign
ID
ID
Version: 3 (0x2)
X509v3 Authority Key Identifier:
X509v3 Basic Constraints: critical
X509v3 Key Usage: critical
X509v3 Subject Key Identifier:
X509v3 extensions:"
DATE="[A-Z][a-z]{2} [ 0-9][0-9] [0-9]{2}:[0-9]{2}:[0-9]{2} [0-9]{4} GMT"

complain() {
    echo "regtuma-certs: $*" >&2
    exit 1
}

usage() {
    sed -n '2,/^set/{/^#/s/^# \{0,1\}//p}' "$0"
    exit "$1"
}

check_organisation() {
    case $1 in
        "" | *[!A-Za-z0-9_]*) complain "an organisation has letters, digits and _ in its name, and this is none: $1" ;;
        [Rr][Oo][Oo][Tt]) complain "an organisation has another name than $1, which is etcd's" ;;
    esac
}

check_name() { # NAME: what becomes the name of a file
    case $1 in
        "" | .* | *[!A-Za-z0-9_.-]*) complain "a client has letters, digits, _, . and - in its name, and this is none: $1" ;;
        ca | *.ca | node | member | members | callers | etcd | root | proxy)
            complain "$1 is no client's name: it means something else here, or to etcd" ;;
    esac
}

begin_work() { # DIR: a folder in it that is taken away at the end
    work=$(mktemp -d "$1/.certs-XXXXXX")
    trap 'rm -rf "$work"' EXIT
    # A shell that a signal ends does not do that of itself.
    trap 'exit 1' HUP INT TERM
}

make_key() { # FILE
    openssl genpkey -algorithm EC -pkeyopt ec_paramgen_curve:P-256 -out "$1" 2> /dev/null || complain "openssl makes no key $1"
}

hosts() { # HOST..: what a certificate is good for, as openssl words it
    list=
    for host in "$@"; do
        case $host in
            "" | *[!A-Za-z0-9.:-]*) complain "this is no name and no address: $host" ;;
            *:*) list="$list,IP:$host" ;;
            *[!0-9.]*) list="$list,DNS:$host" ;;
            *) list="$list,IP:$host" ;;
        esac
    done
    echo "subjectAltName=${list#,}"
}

sign() { # DIR AUTHORITY NAME SUBJECT DAYS, and extensions at the input
    test -r "$1/$2.key" || complain "$1 has no $2.key: begin with regtuma-certs ca"
    begin_work "$1"
    { echo "basicConstraints=critical,CA:false"; echo "keyUsage=critical,digitalSignature"; cat; } > "$work/extensions"
    make_key "$work/key"
    openssl req -new -key "$work/key" -subj "$4" -out "$work/request"
    openssl x509 -req -in "$work/request" -CA "$1/$2.pem" -CAkey "$1/$2.key" -set_serial "0x$(openssl rand -hex 16)" \
        -days "$5" -sha256 -extfile "$work/extensions" -out "$work/pem" 2> "$work/said" || complain "$(cat "$work/said")"
    chmod 644 "$work/pem"
    mv "$work/key" "$1/$3.key"
    mv "$work/pem" "$1/$3.pem"
}

subject_of() { # NAME ORG: whose certificate the authority of a name has
    case $1 in
        ca) echo "O=$2,CN=$2 authority" ;;
        member.ca) echo "O=$2,OU=etcd,CN=$2 authority of members of etcd" ;;
        etcd.ca) echo "O=$2,OU=etcd,CN=$2 authority of those who ask etcd" ;;
    esac
}

make_authorities() { # DIR ORG: those that are not there yet
    mkdir -p "$1"
    made=
    for name in ca member.ca etcd.ca; do
        test ! -e "$1/$name.key" || continue
        made=yes
        make_key "$1/$name.key"
        openssl req -x509 -new -key "$1/$name.key" -subj "/$(subject_of "$name" "$2" | tr , /)" -days 3650 -sha256 \
            -addext "basicConstraints=critical,CA:true,pathlen:0" -addext "keyUsage=critical,keyCertSign,cRLSign" -out "$1/$name.pem"
        chmod 644 "$1/$name.pem"
    done
    test -n "$made" || complain "$1 has its authorities: their keys are not written over"
}

is_as_made() { # SUBJECT: whether $certificate has what make_authorities makes, and nothing else
    # Whole lines are compared: of a name of several parts, or a long number, another program may read another part. Etcd does not begin
    # where its own reader refuses one of the certificates that it trusts, as by a key that is no point of the curve.
    echo "$certificate" > "$work/authority"
    names=$(openssl x509 -in "$work/authority" -noout -subject -issuer -nameopt RFC2253,-dn_rev,show_type 2> /dev/null)
    test "$(echo "$names" | sed 's/=PRINTABLESTRING:/=UTF8STRING:/g')" = "subject=$1
issuer=$1" || return 1
    extensions=$(openssl x509 -in "$work/authority" -noout -text -certopt \
        no_header,no_serial,no_signame,no_validity,no_subject,no_issuer,no_pubkey,no_sigdump,no_aux 2> /dev/null |
        sed -E 's/^ *(keyid:)?//; s/ *$//; s/^([0-9A-F]{2}:){19}[0-9A-F]{2}$/ID/' | LC_ALL=C sort)
    test "$extensions" = "$EXTENSIONS" || return 1
    dates=$(openssl x509 -in "$work/authority" -noout -startdate -enddate 2> /dev/null)
    test "$(echo "$dates" | grep -c -E -x "not(Before|After)=$DATE")" = 2 || return 1
    openssl asn1parse -in "$work/authority" > "$work/said" 2> /dev/null || return 1
    test "$(grep -c -E ': (UTCTIME +:[0-9]{12}|GENERALIZEDTIME +:[0-9]{14})Z$' "$work/said")" = 2 || return 1
    openssl x509 -in "$work/authority" -noout -pubkey > "$work/public" 2> /dev/null || return 1
    openssl pkey -pubin -in "$work/public" -pubcheck -noout -text 2> /dev/null | grep -q -x 'ASN1 OID: prime256v1' || return 1
    openssl pkey -pubin -in "$work/public" -pubcheck -noout > "$work/said" 2>&1 || return 1
    openssl verify -no_check_time -check_ss_sig -CAfile "$work/authority" "$work/authority" > "$work/said" 2>&1
}

read_authority() { # FOLDER NAME: the certificate of one organisation's authority, exactly as make_authorities makes it
    # What another program reads is $certificate, as openssl wrote it anew: a file may have more than the certificate.
    file="$1/$2.pem"
    test "$(grep -c -e -----BEGIN "$file" 2> /dev/null)" = 1 && certificate=$(openssl x509 -in "$file" 2> /dev/null) ||
        complain "$file has to hold the certificate of one authority, and nothing else"
    subject=$(echo "$certificate" | openssl x509 -noout -subject -nameopt RFC2253,-dn_rev 2> /dev/null)
    owner=${subject#subject=O=}
    owner=${owner%%,*}
    case $owner in "" | *[!A-Za-z0-9_]*) complain "$file has to name one organisation" ;; esac
    check_organisation "$owner"
    is_as_made "$(subject_of "$2" "$owner" | sed 's/=/=UTF8STRING:/g')" || complain "$file is no authority as regtuma-certs ca makes it"
    # Another kind may be passed over by one program, and taken by the next.
    ! grep -e '-----BEGIN' "$file" | grep -v -q -x -e '-----BEGIN CERTIFICATE-----' || complain "$file holds more than certificates"
}

gather() { # DIR FOLDER..: whom the machine of the first folder trusts
    mkdir "$work/etcd"
    known=" "
    for folder in "$@"; do
        read_authority "$folder" ca
        first=$owner
        echo "$certificate" >> "$work/proxy.ca.pem"
        for name in member etcd; do
            read_authority "$folder" "$name.ca"
            test "$owner" = "$first" || complain "$folder has authorities of $first and $owner"
            echo "$certificate" >> "$work/etcd/$name"
            test "$folder" != "$1" || echo "$certificate" >> "$work/etcd/own.pem"
        done
        # A name is one however its letters are.
        owner=$(echo "$owner" | tr A-Z a-z)
        case $known in *" $owner "*) complain "$folder has authorities of $first, as another folder has" ;; esac
        known="$known$owner "
    done
    mv "$work/etcd/member" "$work/etcd/members.pem"
    mv "$work/etcd/etcd" "$work/etcd/callers.pem"
}

test $# -gt 0 || usage 2 >&2
what=$1
shift
case $what:$# in
    ca:2)
        check_organisation "$2"
        make_authorities "$1" "$2" ;;
    node:[012] | member:[012]) usage 2 >&2 ;;
    node:* | member:*)
        dir=$1 org=$2
        check_organisation "$org"
        shift 2
        names=$(hosts "$@")
        both=$(printf 'extendedKeyUsage=serverAuth,clientAuth\n%s\n' "$names")
        if test "$what" = node; then
            echo "extendedKeyUsage=clientAuth" | sign "$dir" etcd.ca etcd "/O=$org/OU=etcd" "${DAYS:-825}"
            echo "$both" | sign "$dir" ca node "/O=$org/CN=node" "${DAYS:-825}"
        else
            echo "$both" | sign "$dir" member.ca member "/O=$org/OU=etcd member" "${DAYS:-825}"
        fi ;;
    client:3)
        check_organisation "$2"
        check_name "$3"
        test -e "$1/$3.pem" || test ! -e "$1/$3.key" || complain "$1/$3.key is another key: give the client another name"
        echo "extendedKeyUsage=clientAuth" | sign "$1" ca "$3" "/O=$2/CN=$3" "${DAYS:-90}" ;;
    trust:0 | trust:1) usage 2 >&2 ;;
    trust:*)
        test -d "$1" || complain "there is no folder $1"
        begin_work "$1"
        gather "$@"
        mkdir -p "$1/etcd"
        for name in proxy.ca etcd/members etcd/callers etcd/own; do
            chmod 644 "$work/$name.pem"
            mv "$work/$name.pem" "$1/$name.pem"
        done ;;
    show:1)
        openssl x509 -in "$1" -noout -subject -issuer -enddate ;;
    --help:* | -h:* | help:*) usage 0 ;;
    *) usage 2 >&2 ;;
esac
