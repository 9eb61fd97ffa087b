package main

func main() {
	least, most, one, minus := -9223372036854775808, 9223372036854775807, 1, -1
	println(least/minus, least%minus, least/one, least%one)
	println(most+one, least-one, most+most, least+least, one-least)
	println(most*most, most*2, least*minus, least*least, least*most)
	println(least/2, least%2, least/most, least%most, most/least, most%least)
	println(-least, -most, +least, -minus, - -least)
	a, b := 7, 2
	println(a/b, -a/b, a/-b, -a/-b)
	println(a%b, -a%b, a%-b, -a%-b)
	println(a-b-one, a/b*b+a%b, a+b*a, (a+b)*a)
	println(least < most, most <= least, least >= least, most > least, least == -least, most != most)
}
