package main

import "fmt"

type Ring struct{ next, len int }

// Turn moves on by n places.
func (r *Ring) Turn(n int) int {
	r.next = (r.next + n) % r.len
	return r.next
}

func main() { fmt.Printf("%d\n", (&Ring{len: 7}).Turn(0x1f)) }
