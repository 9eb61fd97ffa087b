package other
func main() {}
