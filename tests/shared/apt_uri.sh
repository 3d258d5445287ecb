# For scripts that install packages of Debian into a folder; each reads this file by `.`.

# apt_uri [security]: prints the address of Debian's archive in apt's own sources, or of its security updates, without a slash at the end. Fails if the
# sources have none.
apt_uri() {
    local uri
    # shellcheck disable=SC2016
    uri=$(apt-get indextargets --format '$(RELEASE) $(REPO_URI)' 'Created-By: Packages' |
        awk -v wanted="${1-}" '/^[^ ]*-security / == (wanted == "security") { sub("/$", "", $2); print $2; exit }')
    if [ -z "$uri" ]; then
        echo "apt's sources have no archive${1:+ of $1 updates} of Debian" >&2
        return 1
    fi
    echo "$uri"
}
