;;; -*- lexical-binding: t -*-
;;; Edits each of $FILES at random, and compares the buffer with the text that the language server holds.

(require 'cl-lib)
(require 'eglot)

(defvar test-texts '("x" "(" ")" "[]" "{\n" "}" "😀" "e\u0301" "\u0301" "é" " " "\n" "\u2028" "one\ntwo\n" "\n😀"))
(defvar test-compared 0)

(defun test-one-of (list)
  (nth (random (length list)) list))

(defun test-place ()
  (+ (point-min) (random (1+ (buffer-size)))))

(defun test-insert ()
  (goto-char (test-place))
  (insert (test-one-of test-texts)))

(defun test-delete ()
  (let ((start (test-place)))
    (delete-region start (min (point-max) (+ start (random 6))))))

(defun test-replace ()
  (let ((start (test-place)))
    (delete-region start (min (point-max) (+ start (random 4))))
    (goto-char start)
    (insert (test-one-of test-texts) (test-one-of test-texts))))

(defun test-command ()
  "A command as a user gives it."
  (goto-char (test-place))
  (ignore-errors
    (call-interactively
     (test-one-of '(kill-line kill-word transpose-chars transpose-lines upcase-word open-line delete-indentation yank
                    capitalize-word delete-blank-lines backward-delete-char-untabify newline)))))

(defun test-undo ()
  "Several undos, or undos of undos, as `last-command' says."
  (setq last-command (test-one-of '(undo self-insert-command)))
  (dotimes (_ (1+ (random 3)))
    (ignore-errors (undo 1))
    (setq last-command 'undo)))

(defun test-compare (moment)
  (eglot--signal-textDocument/didChange)
  (let ((held (plist-get (jsonrpc-request (eglot-current-server) :lodvark/text
                                          (list :textDocument (eglot--TextDocumentIdentifier)))
                         :text))
        (wanted (buffer-substring-no-properties (point-min) (point-max))))
    (unless (equal held wanted)
      (error "%s: the server holds %S, the buffer %S" moment held wanted))
    (cl-incf test-compared)))

(defun test-edit (file steps)
  (find-file file)
  (buffer-enable-undo)
  (run-hooks 'post-command-hook) ; where `eglot-ensure' waits, since no command loop runs here
  (test-compare (format "%s as opened" file))
  (dotimes (step steps)
    (undo-boundary)
    (funcall (test-one-of '(test-insert test-replace test-delete test-command test-command test-undo)))
    (when (zerop (% (1+ step) 20))
      (test-compare (format "%s, step %d" file (1+ step))))))

(defun test-columns ()
  "A column inside a surrogate pair means the place in front of it, and does not make eglot 1.9 turn for ever."
  (with-temp-buffer
    (insert "a😀b")
    (dolist (wanted '((0 . 1) (1 . 2) (2 . 2) (3 . 3) (4 . 4) (9 . 4)))
      (goto-char (point-min))
      (funcall eglot-move-to-column-function (car wanted))
      (unless (= (point) (cdr wanted))
        (error "column %d: at %d" (car wanted) (point))))))

(defun test-rename (folder)
  "A word that stands in two files becomes another one in both."
  (let ((files (mapcar (lambda (name) (expand-file-name name folder)) '("one.txt" "two.txt"))))
    (dolist (file files)
      (find-file file)
      (run-hooks 'post-command-hook)
      (insert "old 😀old\nolder (old)\n")
      (test-compare file))
    (goto-char (point-min))
    (eglot-rename "new")
    (dolist (file files)
      (with-current-buffer (get-file-buffer file)
        (unless (equal (buffer-string) "new 😀new\nolder (new)\n")
          (error "%s, renamed: %S" file (buffer-string)))
        (test-compare (format "%s, renamed" file))))))

(let ((inhibit-message t)
      (files (split-string (getenv "FILES"))))
  (random (getenv "SEED"))
  (dolist (file files)
    (test-edit file (string-to-number (getenv "STEPS"))))
  (when (boundp 'eglot-move-to-column-function) ; not in every newer one
    (test-columns))
  (test-rename (file-name-directory (car files)))
  (setq inhibit-message nil)
  (princ (format "%d files, %s steps each, %d times the same\n" (length files) (getenv "STEPS") test-compared))
  (dolist (buffer (buffer-list))
    (with-current-buffer buffer (set-buffer-modified-p nil)))
  (kill-emacs 0))
