// rdrecord-go runs the go command on a program, or on the tests of packages, so that the run is recorded. No source is changed: the
// compiler is handed rewritten copies by an overlay.
//
//	rdrecord-go test|run|build [flags of the go command] PACKAGES
package main

import (
	"encoding/json"
	"fmt"
	"io"
	"os"
	"os/exec"
	"path/filepath"
	"runtime"
	"strings"
)

// valued are the flags of the go command that take their value as a word of its own.
var valued = map[string]bool{
	"asmflags": true, "bench": true, "benchtime": true, "blockprofile": true, "buildmode": true, "C": true, "count": true,
	"coverpkg": true, "coverprofile": true, "cpu": true, "cpuprofile": true, "exec": true, "fuzz": true, "gcflags": true,
	"installsuffix": true, "ldflags": true, "memprofile": true, "mod": true, "modfile": true, "o": true, "outputdir": true,
	"p": true, "parallel": true, "pkgdir": true, "run": true, "shuffle": true, "tags": true, "timeout": true, "toolexec": true, "vet": true,
}

// listed is a package as `go list -json` tells it.
type listed struct {
	Dir, ImportPath, Name, ForTest, Export       string
	Standard, DepOnly                            bool
	GoFiles, CgoFiles, TestGoFiles, XTestGoFiles []string
	ImportMap                                    map[string]string
	Module                                       *struct {
		Path, Dir, GoVersion string
		Main                 bool
	}
}

// command is the go command with these words.
func command(words ...string) *exec.Cmd {
	done := exec.Command("go", words...)
	done.Stderr = os.Stderr
	return done
}

func fail(what ...any) {
	fmt.Fprintln(os.Stderr, append([]any{"rdrecord-go:"}, what...)...)
	os.Exit(2)
}

func main() {
	if len(os.Args) < 2 || os.Args[1] != "test" && os.Args[1] != "run" && os.Args[1] != "build" {
		fail("use: rdrecord-go test|run|build [flags of the go command] PACKAGES")
	}
	verb, flags, packages, rest := os.Args[1], []string{}, []string{}, []string{}
	for words := os.Args[2:]; len(words) > 0; words = words[1:] {
		word := words[0]
		name := strings.TrimLeft(word, "-")
		switch {
		case word == "-args" || word == "--args" || verb == "run" && len(packages) > 0 && !strings.HasSuffix(word, ".go"):
			rest, words = words, words[:1]
		case !strings.HasPrefix(word, "-"):
			packages = append(packages, word)
		case valued[name] && len(words) > 1:
			flags, words = append(flags, word, words[1]), words[1:]
		default:
			flags = append(flags, word)
		}
	}
	for _, one := range packages {
		if strings.HasSuffix(one, ".go") {
			fail("name the package, not its files:", one)
		}
	}
	if len(packages) == 0 {
		packages = []string{"."}
	}
	folder, err := os.MkdirTemp("", "rdrecord")
	if err != nil {
		fail(err)
	}
	each, extra := prepare(verb, flags, packages, folder)
	words := append([]string{verb, "-overlay=" + filepath.Join(folder, "overlay.json")}, extra...)
	if verb == "test" {
		words = append(words, "-vet=off", "-count=1")
	}
	done := command(append(append(append(words, flags...), packages...), rest...)...)
	done.Stdin, done.Stdout = os.Stdin, os.Stdout
	done.Env = append(os.Environ(), variables(each)...)
	err = done.Run()
	if os.Getenv("RDRECORD_KEEP") == "" {
		os.RemoveAll(folder)
	} else {
		fmt.Fprintln(os.Stderr, "rdrecord-go: the rewritten sources are in", folder)
	}
	if exit, is := err.(*exec.ExitError); is {
		os.Exit(exit.ExitCode())
	} else if err != nil {
		fail(err)
	}
}

// variables make the paths whole, for tests run in the folders of their packages.
func variables(each bool) (set []string) {
	here, _ := os.Getwd()
	path := os.Getenv("RDRECORD")
	if path == "" {
		path = "run.trace"
	}
	if !filepath.IsAbs(path) {
		path = filepath.Join(here, path)
	}
	set = append(set, "RDRECORD="+path, "RDRECORD_HERE="+here, "RDRECORD_RUNNING=")
	if each {
		set = append(set, "RDRECORD_EACH=yes")
	}
	if objects := os.Getenv("RDRECORD_OBJECTS"); objects != "" && !filepath.IsAbs(objects) {
		set = append(set, "RDRECORD_OBJECTS="+filepath.Join(here, objects))
	}
	return set
}

// list is what the go command knows of the packages and what they need.
func list(verb string, flags, packages []string) (all []*listed) {
	words := []string{"list", "-json", "-deps", "-export", "-e"}
	if verb == "test" {
		words = append(words, "-test")
	}
	for i, flag := range flags { // those of a build
		for _, name := range []string{"tags", "mod", "modfile", "race", "installsuffix"} {
			if bare := strings.TrimLeft(flag, "-"); bare == name && name != "race" && i+1 < len(flags) {
				words = append(words, flag+"="+flags[i+1])
			} else if bare == name || strings.HasPrefix(bare, name+"=") {
				words = append(words, flag)
			}
		}
	}
	done := command(append(append(words, "--"), packages...)...)
	out, err := done.StdoutPipe()
	if err != nil {
		fail(err)
	}
	if err := done.Start(); err != nil {
		fail(err)
	}
	for reader := json.NewDecoder(out); ; {
		one := &listed{}
		if err := reader.Decode(one); err == io.EOF {
			break
		} else if err != nil {
			fail(err)
		}
		all = append(all, one)
	}
	if err := done.Wait(); err != nil {
		fail("go list:", err)
	}
	return all
}

// also says whether the variable RDRECORD_PACKAGES names a package that isn't of the program itself.
func also(path string) bool {
	for _, pattern := range strings.Split(os.Getenv("RDRECORD_PACKAGES"), ",") {
		front := strings.TrimSuffix(pattern, "...")
		if pattern != "" && (path == pattern || front != pattern && (strings.HasPrefix(path, front) || path == strings.TrimSuffix(front, "/"))) {
			return true
		}
	}
	return false
}

// prepare writes the rewritten sources, the recorder's and the overlay. The first answer is whether several packages have tests.
func prepare(verb string, flags, packages []string, folder string) (each bool, extra []string) {
	all, exports := list(verb, flags, packages), map[string]string{}
	for _, one := range all {
		exports[one.ImportPath] = one.Export
	}
	chosen, tested, root := []*listed{}, map[string]bool{}, (*listed)(nil)
	for _, one := range all {
		if one.Standard || strings.HasSuffix(one.ImportPath, ".test") || one.Dir == "" {
			continue
		}
		path := strings.Split(one.ImportPath, " ")[0]
		mine := one.Module != nil && one.Module.Main || one.Module == nil && !one.DepOnly || one.ForTest != "" && one.Module == nil && !one.DepOnly
		if !mine && !also(path) {
			continue
		}
		chosen = append(chosen, one)
		if mine && (root == nil || len(path) < len(strings.Split(root.ImportPath, " ")[0])) && one.Name != "" && !strings.HasSuffix(path, "_test") {
			root = one
		}
		if len(one.TestGoFiles)+len(one.XTestGoFiles) > 0 && !one.DepOnly {
			tested[path] = true
		}
	}
	if root == nil {
		fail("no package of a program is there")
	}
	place, path := root.Dir, strings.Split(root.ImportPath, " ")[0]
	if root.Module != nil {
		place, path = root.Module.Dir, root.Module.Path
	}
	work := &rewriting{folder: folder, recorder: path + "/_rdrecord", place: filepath.Join(place, "_rdrecord"), replace: map[string]string{}, exports: exports}
	work.readObjects(os.Getenv("RDRECORD_OBJECTS"))
	versions := map[string]bool{}
	for i := len(chosen) - 1; i >= 0; i-- { // the packages with their tests come behind, and have more files
		work.rewrite(chosen[i])
		if m := chosen[i].Module; m != nil && old(m.GoVersion) && !versions[m.Path] {
			versions[m.Path] = true
			extra = append(extra, "-gcflags="+m.Path+"/...=-lang=go1.18")
		}
	}
	work.addRecorder(work.place)
	work.tellUnused()
	text, _ := json.Marshal(map[string]any{"Replace": work.replace})
	if err := os.WriteFile(filepath.Join(folder, "overlay.json"), text, 0o666); err != nil {
		fail(err)
	}
	return len(tested) > 1, extra
}

// old says whether a module's version of Go is from before generic functions.
func old(version string) bool {
	major, minor := 1, 0
	fmt.Sscanf(version, "%d.%d", &major, &minor)
	return version == "" || major == 1 && minor < 18
}

// addRecorder puts the recorder's own files where the rewritten ones import them from.
func (w *rewriting) addRecorder(to string) {
	_, me, _, _ := runtime.Caller(0)
	from := filepath.Dir(filepath.Dir(me))
	files, _ := filepath.Glob(filepath.Join(from, "*.[gs]*"))
	if len(files) == 0 {
		fail("the recorder isn't in", from, "any more")
	}
	for _, file := range files {
		name := filepath.Base(file)
		if filepath.Ext(file) != ".go" || strings.HasSuffix(name, "_test.go") || name == "goroutine_fast.go" {
			continue
		}
		w.replace[filepath.Join(to, name)] = file
	}
	w.addCurrent(from, to)
	w.write(filepath.Join(to, "begin.go"), fmt.Sprintf("package rdrecord\n\nfunc init() { begin(%q) }\n", "A run of "+strings.TrimSuffix(w.recorder, "/_rdrecord")+"."))
}

// current is goroutine_fast.go of the overlay.
const current = `//go:build amd64

package rdrecord

import (
	"container/ring"
	"unsafe"
)

func current() unsafe.Pointer { return ring.RdrecordCurrent() }
`

// addCurrent adds what asks for the number of a goroutine. It isn't written in Go, and that needs a folder which is there; so it goes
// with a package of the standard library on which no other depends.
func (w *rewriting) addCurrent(from, to string) {
	out, err := command("env", "GOROOT").Output()
	if err != nil {
		fail(err)
	}
	ring := filepath.Join(strings.TrimSpace(string(out)), "src", "container", "ring")
	w.write(filepath.Join(to, "goroutine_fast.go"), current)
	w.write(filepath.Join(ring, "rdrecord.go"), strings.NewReplacer("package rdrecord", "package ring", "current()", "RdrecordCurrent()").Replace(read(filepath.Join(from, "goroutine_fast.go"))))
	assembly := "goroutine_amd64.s"
	w.write(filepath.Join(ring, assembly), strings.ReplaceAll(read(filepath.Join(from, assembly)), "current", "RdrecordCurrent"))
}

func read(path string) string {
	text, err := os.ReadFile(path)
	if err != nil {
		fail(err)
	}
	return string(text)
}

// write puts a text of ours where the compiler looks for path.
func (w *rewriting) write(path, text string) {
	to := filepath.Join(w.folder, fmt.Sprintf("%d.%s", len(w.replace), filepath.Base(path)))
	if err := os.WriteFile(to, []byte(text), 0o666); err != nil {
		fail(err)
	}
	w.replace[path] = to
}
