//go:build !storklocker_pkgconfig
// +build !storklocker_pkgconfig

package storklocker

// #cgo CFLAGS: -I${SRCDIR}/include
// #cgo linux,amd64 LDFLAGS: ${SRCDIR}/lib/x86_64-linux/libstorklocker.a
// #cgo linux,arm64 LDFLAGS: ${SRCDIR}/lib/aarch64-linux/libstorklocker.a
// #cgo linux,riscv64 LDFLAGS: ${SRCDIR}/lib/riscv64-linux/libstorklocker.a
import "C"
