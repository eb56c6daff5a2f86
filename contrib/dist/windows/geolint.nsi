; The installer for Windows, for one user and without an administrator: the programs, the user's PATH, and in Explorer's menu of GeoJSON
; files "Check with geolint". Its uninstaller takes all of it away. It is made on Linux:
;
;     makensis -DVERSION=0.1.0 -DFOLDER=what-is-installed -DOUT=geolint-setup.exe geolint.nsi
Target amd64-unicode
Unicode true
Name "geolint ${VERSION}"
OutFile "${OUT}"
InstallDir "$LOCALAPPDATA\Programs\geolint"
RequestExecutionLevel user
SetCompressor /SOLID lzma
SetDateSave off
!include LogicLib.nsh
!include WinMessages.nsh
!include WordFunc.nsh
!insertmacro WordReplace
!insertmacro un.WordReplace
Page directory
Page instfiles
UninstPage uninstConfirm
UninstPage instfiles

!define UNINSTALL "Software\Microsoft\Windows\CurrentVersion\Uninstall\geolint"
!define CLASSES "Software\Classes\SystemFileAssociations"

; The user's PATH in $0, and in $1 whether it is a text whose variables are expanded. $2 is 1 where it has more than this program's
; strings take, and is then left alone.
!macro ReadPath
  System::Call 'advapi32::RegGetValueW(p 0x80000001, w "Environment", w "Path", i 0x10000006, *i .r1, p 0, *i .r2) i .r3'
  ReadRegStr $0 HKCU "Environment" "Path"
  StrLen $4 "$INSTDIR"
  IntOp $2 $2 / 2
  IntOp $2 $2 + $4
  ${If} $3 <> 0
    StrCpy $1 2
    StrCpy $2 0
  ${EndIf}
  ${If} $2 < ${NSIS_MAX_STRLEN}
    StrCpy $2 0
  ${Else}
    StrCpy $2 1
  ${EndIf}
!macroend

!macro WritePath
  ${If} $1 == 1
    WriteRegStr HKCU "Environment" "Path" "$0"
  ${Else}
    WriteRegExpandStr HKCU "Environment" "Path" "$0"
  ${EndIf}
  SendMessage ${HWND_BROADCAST} ${WM_SETTINGCHANGE} 0 "STR:Environment" /TIMEOUT=2000
!macroend

!macro AddMenu ENDING
  WriteRegStr HKCU "${CLASSES}\${ENDING}\shell\geolint" "" "Check with geolint"
  WriteRegStr HKCU "${CLASSES}\${ENDING}\shell\geolint\command" "" 'cmd.exe /k ""$INSTDIR\geolint-files.exe" --summary "%1""'
!macroend

!macro RemoveMenu ENDING
  DeleteRegKey HKCU "${CLASSES}\${ENDING}\shell\geolint"
  DeleteRegKey /ifempty HKCU "${CLASSES}\${ENDING}\shell"
  DeleteRegKey /ifempty HKCU "${CLASSES}\${ENDING}"
!macroend

Section
  SetOutPath "$INSTDIR"
  File "${FOLDER}\*"
  WriteUninstaller "$INSTDIR\uninstall.exe"
  WriteRegStr HKCU "${UNINSTALL}" "DisplayName" "geolint"
  WriteRegStr HKCU "${UNINSTALL}" "DisplayVersion" "${VERSION}"
  WriteRegStr HKCU "${UNINSTALL}" "InstallLocation" "$INSTDIR"
  WriteRegStr HKCU "${UNINSTALL}" "UninstallString" '"$INSTDIR\uninstall.exe"'
  WriteRegStr HKCU "${UNINSTALL}" "QuietUninstallString" '"$INSTDIR\uninstall.exe" /S'
  WriteRegDWORD HKCU "${UNINSTALL}" "NoModify" 1
  WriteRegDWORD HKCU "${UNINSTALL}" "NoRepair" 1
  !insertmacro AddMenu .geojson
  !insertmacro AddMenu .geojsons
  !insertmacro AddMenu .geojsonl
  !insertmacro ReadPath
  ${If} $2 = 1
    DetailPrint "PATH is too long to be changed here: $INSTDIR can be added to it by hand"
  ${Else}
    ${WordReplace} ";$0;" ";$INSTDIR;" ";" "+1" $3
    ${If} $3 == ";$0;"
      ${If} $0 == ""
        StrCpy $0 "$INSTDIR"
      ${Else}
        StrCpy $0 "$0;$INSTDIR"
      ${EndIf}
      !insertmacro WritePath
    ${EndIf}
  ${EndIf}
SectionEnd

Section "Uninstall"
  !insertmacro ReadPath
  ${un.WordReplace} ";$0;" ";$INSTDIR;" ";" "+1" $3
  ${If} $2 = 0
  ${AndIf} $3 != ";$0;"
    StrCpy $0 $3 -1 1
    ${If} $3 == ";"
      DeleteRegValue HKCU "Environment" "Path"
      SendMessage ${HWND_BROADCAST} ${WM_SETTINGCHANGE} 0 "STR:Environment" /TIMEOUT=2000
    ${Else}
      !insertmacro WritePath
    ${EndIf}
  ${EndIf}
  !insertmacro RemoveMenu .geojson
  !insertmacro RemoveMenu .geojsons
  !insertmacro RemoveMenu .geojsonl
  DeleteRegKey /ifempty HKCU "${CLASSES}"
  DeleteRegKey HKCU "${UNINSTALL}"
  ; By name, since the folder may have other files.
  Delete "$INSTDIR\geolint.exe"
  Delete "$INSTDIR\geolint-files.exe"
  Delete "$INSTDIR\rules.md"
  Delete "$INSTDIR\user.md"
  Delete "$INSTDIR\BUILD"
  Delete "$INSTDIR\uninstall.exe"
  RMDir "$INSTDIR"
SectionEnd
