//go:build storklocker_pkgconfig
// +build storklocker_pkgconfig

package storklocker

// #cgo pkg-config: storklocker
import "C"
