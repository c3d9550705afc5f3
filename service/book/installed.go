//go:build lrc_embed_installed

package book

// #cgo pkg-config: lrc_embed
import "C"
