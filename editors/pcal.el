;; Emacs: M-x pcal-check checks the file, and M-x next-error goes to the place of a refusal
;; put it into ~/.emacs.d/init.el; the line of a refusal is known to Emacs as it is
(defun pcal-check ()
  "Save the file and look what is wrong with it."
  (interactive)
  (save-buffer)
  (compile (concat "pcal check " (shell-quote-argument (file-name-nondirectory buffer-file-name)))))
