package main // Loads a file over an environment, in Go.

// #cgo pkg-config: dotenvy
// #include <dotenvy.h>
// static void load(_GoString_ file, _GoString_ block, struct dotenvy_answer *a, void *out, size_t n) {
//     dotenvy_load(_GoStringPtr(file), _GoStringLen(file), _GoStringPtr(block), _GoStringLen(block), 0, a, out, n);
// }
import "C"
import "fmt"
import "strings"
import "unsafe"

func main() {
	file, block := "HOST=localhost\nURL=http://${HOST}:${PORT}/\nUSER=a b\n", "PORT=9\x00"
	var answer C.struct_dotenvy_answer
	C.load(file, block, &answer, nil, 0) // how long is the result?
	out := make([]byte, answer.block_len+answer.text_len+1)
	if C.load(file, block, &answer, unsafe.Pointer(&out[0]), C.size_t(len(out))); !bool(answer.fits) {
		panic(fmt.Sprint("status ", answer.status))
	}
	fmt.Print(strings.ReplaceAll(string(out[:answer.block_len]), "\x00", "\n"))
	if answer.status != C.DOTENVY_OK {
		fmt.Printf("error %d: %s\n", answer.status, out[answer.block_len:answer.block_len+answer.text_len])
	}
}
