module circl

go 1.19

require (
	github.com/cloudflare/circl v1.3.1
	hpkebatch v0.0.0
)

require (
	golang.org/x/crypto v0.4.0 // indirect
	golang.org/x/sys v0.3.0 // indirect
)

// Debian's golang-github-cloudflare-circl-dev and what it needs, so that nothing is fetched.
replace (
	github.com/cloudflare/circl => /usr/share/gocode/src/github.com/cloudflare/circl
	golang.org/x/crypto => /usr/share/gocode/src/golang.org/x/crypto
	golang.org/x/sys => /usr/share/gocode/src/golang.org/x/sys
	hpkebatch => ../..
)
