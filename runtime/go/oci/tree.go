package oci

import (
	"os"
	"path/filepath"
	"strings"
	"syscall"
	"unsafe"
)

// place is where something lies in a tree: a folder, and a name in it.
type place struct{ folder, name string }

func (p place) path() string { return filepath.Join(p.folder, p.name) }

// parent is the folder that it lies in: a name may have folders of its own.
func (p place) parent() string {
	if k := strings.LastIndexByte(p.name, '/'); k >= 0 {
		return p.folder + "/" + p.name[:k]
	}
	return p.folder
}

// tree is a folder, with those of its folders open that are in use, so that the system need not walk to each file from its root.
type tree struct {
	path   string
	open   map[string]int
	buffer []byte // for the entries of a folder, while nobody uses it
}

// mostOpen is how many folders stay open.
const mostOpen = 200

func newTree(path string) *tree { return &tree{path: path, open: map[string]int{}} }

// close gives the open folders back; the tree can be used again.
func (t *tree) close() {
	for folder, fd := range t.open {
		syscall.Close(fd)
		delete(t.open, folder)
	}
}

// at is the place in the file system.
func (t *tree) at(path string) string { return filepath.Join(t.path, path) }

// folder is an open folder of the tree.
func (t *tree) folder(path string) (int, error) {
	if fd, is := t.open[path]; is {
		return fd, nil
	}
	if len(t.open) == mostOpen {
		t.close()
	}
	fd, err := openFolder(t.at(path))
	if err == nil {
		t.open[path] = fd
	}
	return fd, err
}

func openFolder(path string) (int, error) {
	for {
		fd, err := syscall.Open(path, syscall.O_RDONLY|syscall.O_DIRECTORY|syscall.O_CLOEXEC, 0)
		if err == syscall.EINTR {
			continue
		}
		if err != nil {
			return -1, &os.PathError{Op: "open", Path: path, Err: err}
		}
		return fd, nil
	}
}

// file opens a file for reading.
func (t *tree) file(p place, flags int) (int, error) {
	folder, err := t.folder(p.folder)
	if err != nil {
		return -1, err
	}
	for {
		fd, err := syscall.Openat(folder, p.name, flags|syscall.O_RDONLY|syscall.O_CLOEXEC|syscall.O_NONBLOCK, 0)
		if err == syscall.EINTR {
			continue
		}
		if err != nil {
			return -1, &os.PathError{Op: "open", Path: t.at(p.path()), Err: err}
		}
		return fd, nil
	}
}

// rename moves a file within the tree, to a folder that is there.
func (t *tree) rename(from, to place) error {
	if len(t.open) > mostOpen-2 {
		t.close()
	}
	source, err := t.folder(from.folder)
	if err != nil {
		return err
	}
	target, err := t.folder(to.folder)
	if err != nil {
		return err
	}
	for err = syscall.EINTR; err == syscall.EINTR; {
		err = syscall.Renameat(source, from.name, target, to.name)
	}
	if err != nil {
		return &os.LinkError{Op: "rename", Old: t.at(from.path()), New: t.at(to.path()), Err: err}
	}
	return nil
}

// remove deletes a file.
func (t *tree) remove(p place) error {
	folder, err := t.folder(p.folder)
	if err != nil {
		return err
	}
	for err = syscall.EINTR; err == syscall.EINTR; {
		err = syscall.Unlinkat(folder, p.name)
	}
	if err != nil {
		return &os.PathError{Op: "remove", Path: t.at(p.path()), Err: err}
	}
	return nil
}

// removeFolder deletes an empty folder.
func (t *tree) removeFolder(p place) error {
	path := t.at(p.path())
	for {
		err := syscall.Rmdir(path)
		if err == syscall.EINTR {
			continue
		}
		if err != nil {
			return &os.PathError{Op: "remove", Path: path, Err: err}
		}
		return nil
	}
}

// Types of entries that are told apart.
const (
	otherEntry = iota
	fileEntry
	linkEntry
	folderEntry
)

// entries goes over a folder; the name is good until the call ends.
func (t *tree) entries(path string, do func(name []byte, kind int)) error {
	fd, err := openFolder(t.at(path))
	if err != nil {
		return err
	}
	defer syscall.Close(fd)
	buffer := t.buffer
	if t.buffer = nil; buffer == nil {
		buffer = make([]byte, 1<<15)
	}
	defer func() { t.buffer = buffer }()
	for {
		n, err := syscall.ReadDirent(fd, buffer)
		if err == syscall.EINTR {
			continue
		}
		if err != nil {
			return &os.PathError{Op: "readdir", Path: t.at(path), Err: err}
		}
		if n == 0 {
			return nil
		}
		for rest := buffer[:n]; len(rest) > 0; {
			// The system aligns entries, and the first of them stands at the beginning of the buffer.
			one := (*syscall.Dirent)(unsafe.Pointer(&rest[0]))
			name := rest[unsafe.Offsetof(one.Name):one.Reclen]
			for k, letter := range name {
				if letter == 0 {
					name = name[:k]
					break
				}
			}
			rest = rest[one.Reclen:]
			if one.Ino == 0 || string(name) == "." || string(name) == ".." {
				continue
			}
			do(name, t.kind(path, name, one.Type))
		}
	}
}

// kind is what an entry is; some file systems do not tell it with the name.
func (t *tree) kind(path string, name []byte, told uint8) int {
	switch told {
	case syscall.DT_REG:
		return fileEntry
	case syscall.DT_LNK:
		return linkEntry
	case syscall.DT_DIR:
		return folderEntry
	case syscall.DT_UNKNOWN:
		info, err := os.Lstat(filepath.Join(t.at(path), string(name)))
		switch {
		case err != nil:
		case info.Mode().IsRegular():
			return fileEntry
		case info.IsDir():
			return folderEntry
		case info.Mode()&os.ModeSymlink != 0:
			return linkEntry
		}
	}
	return otherEntry
}
