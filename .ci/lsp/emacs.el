;;; emacs.el --- Uses the language server in Emacs, set up as docs/editors.md says -*- lexical-binding: t -*-

;; emacs --batch -l SETUP -l emacs.el, in a folder where ring.geojson is. Status 1 where something is not as it should be.

;;; Code:

(defun wanted (name is-right got)
  "End with status 1 unless IS-RIGHT; NAME and GOT say what is wrong."
  (unless is-right
    (message "FAILED: %s: %S" name got)
    (kill-emacs 1)))

(defun spots ()
  "The diagnostics of this buffer: each with its code, its beginning and its end."
  (mapcar (lambda (it)
            (list (substring (flymake-diagnostic-text it) 0 24) (flymake-diagnostic-beg it) (flymake-diagnostic-end it)))
          (flymake-diagnostics)))

(defun has (name spots)
  "Wait until this buffer has SPOTS; NAME says which these are."
  ;; What Emacs does when nobody types for a while.
  (eglot--signal-textDocument/didChange)
  (let ((end (+ (float-time) 15)))
    (while (and (not (equal (spots) spots)) (< (float-time) end))
      (flymake-start)
      (accept-process-output nil 0.05))
    (wanted name (equal (spots) spots) (spots))))

(setq eglot-sync-connect t
      eglot-confirm-server-initiated-edits nil)
(find-file "ring.geojson")
(run-hooks 'post-command-hook)
(wanted "the server runs" (eglot-current-server) major-mode)

;; The character outside of the BMP is one for Emacs, and two for the protocol.
(has "the fault" '(("geolint [G15]: A ring do" 54 79)))
(goto-char 56)
(let ((hover (jsonrpc-request (eglot-current-server) :textDocument/hover (eglot--TextDocumentPositionParams))))
  (wanted "hover" (string-match-p "### G15: ring not closed" (plist-get (plist-get hover :contents) :value)) hover))
(let ((actions (eglot-code-actions 54 55)))
  (wanted "one fix" (= (length actions) 1) actions)
  (eglot--apply-workspace-edit (plist-get (car actions) :edit)))
(has "the fix mends it" '())
(wanted "what the fix writes" (progn (goto-char 1) (search-forward "[0,1],[0,0]]]}" nil t)) (buffer-string))

;; As one types: an edit in another line, and several at once.
(goto-char 2)
(insert "\n🚲")
(has "a fault that is typed" '(("geolint [J1]: This chara" 3 4)))
(delete-region 2 4)
(while (re-search-forward "0" nil t) (replace-match "0.5"))
(has "and taken back, with other edits" '())
(eglot-shutdown (eglot-current-server))
(kill-emacs 0)
;;; emacs.el ends here
