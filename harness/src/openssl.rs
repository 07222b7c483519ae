// OpenSSL's libcrypto, the second implementation: the few functions of evp.h, params.h and aes.h that are needed,
// declared by hand.
use crate::direction::Direction;
use std::ffi::CString;
use std::os::raw::{c_char, c_int, c_uchar, c_uint, c_void};
use std::ptr;

#[repr(C)]
struct Algorithm {
    opaque: [u8; 0],
}

#[repr(C)]
struct Context {
    opaque: [u8; 0],
}

#[repr(C)]
struct Engine {
    opaque: [u8; 0],
}

#[repr(C)]
struct Library {
    opaque: [u8; 0],
}

// OSSL_PARAM of core.h.
#[repr(C)]
struct Parameter {
    key: *const c_char,
    data_type: c_uint,
    data: *mut c_void,
    data_size: usize,
    return_size: usize,
}

extern "C" {
    fn EVP_get_cipherbyname(name: *const c_char) -> *const Algorithm;
    fn EVP_CIPHER_fetch(
        library: *mut Library,
        name: *const c_char,
        properties: *const c_char,
    ) -> *mut Algorithm;
    fn EVP_CIPHER_free(algorithm: *mut Algorithm);
    fn OSSL_PARAM_construct_utf8_string(
        key: *const c_char,
        text: *mut c_char,
        size: usize,
    ) -> Parameter;
    fn OSSL_PARAM_construct_end() -> Parameter;
    fn EVP_CIPHER_CTX_new() -> *mut Context;
    fn EVP_CIPHER_CTX_free(context: *mut Context);
    fn EVP_CIPHER_CTX_set_padding(context: *mut Context, padding: c_int) -> c_int;
    fn EVP_CipherInit_ex(
        context: *mut Context,
        algorithm: *const Algorithm,
        engine: *mut Engine,
        key: *const c_uchar,
        iv: *const c_uchar,
        encrypt: c_int,
    ) -> c_int;
    fn EVP_CipherInit_ex2(
        context: *mut Context,
        algorithm: *const Algorithm,
        key: *const c_uchar,
        iv: *const c_uchar,
        encrypt: c_int,
        parameters: *const Parameter,
    ) -> c_int;
    fn EVP_CipherUpdate(
        context: *mut Context,
        out: *mut c_uchar,
        out_length: *mut c_int,
        input: *const c_uchar,
        input_length: c_int,
    ) -> c_int;
    fn AES_set_encrypt_key(key: *const c_uchar, bits: c_int, schedule: *mut Schedule) -> c_int;
    fn AES_set_decrypt_key(key: *const c_uchar, bits: c_int, schedule: *mut Schedule) -> c_int;
    fn AES_encrypt(block: *const c_uchar, out: *mut c_uchar, schedule: *const Schedule);
    fn AES_decrypt(block: *const c_uchar, out: *mut c_uchar, schedule: *const Schedule);
}

// AES_KEY of aes.h. On x86-64 the words lie in memory as FIPS 197 has their bytes.
#[derive(Clone)]
#[repr(C)]
struct Schedule {
    keys: [u8; 240],
    rounds: c_int,
}

// A cipher under a key in one of OpenSSL's modes, with no padding.
pub struct Cipher {
    context: *mut Context,
}

impl Cipher {
    // `mode` is the end of OpenSSL's name: ecb, cbc, cfb1, cfb8, cfb, ofb or ctr. The IV is empty in ECB.
    pub fn new(mode: &str, key: &[u8], iv: &[u8], direction: Direction) -> Cipher {
        assert!(iv.len() == if mode == "ecb" { 0 } else { 16 });
        let name = CString::new(format!("aes-{}-{}", 8 * key.len(), mode)).unwrap();
        let encrypt = (direction == Direction::Encrypt) as c_int;
        unsafe {
            let algorithm = EVP_get_cipherbyname(name.as_ptr());
            assert!(!algorithm.is_null(), "libcrypto has no {:?}", name);
            let context = EVP_CIPHER_CTX_new();
            assert!(!context.is_null());
            let iv = if iv.is_empty() {
                ptr::null()
            } else {
                iv.as_ptr()
            };
            let begun = EVP_CipherInit_ex(
                context,
                algorithm,
                ptr::null_mut(),
                key.as_ptr(),
                iv,
                encrypt,
            );
            assert!(begun == 1 && EVP_CIPHER_CTX_set_padding(context, 0) == 1);
            Cipher { context }
        }
    }

    // CBC with ciphertext stealing as RFC 2040 has it, which is OpenSSL's CS3. The whole message goes through in one
    // update.
    pub fn stealing(key: &[u8], iv: &[u8], direction: Direction) -> Cipher {
        assert!(iv.len() == 16);
        let name = CString::new(format!("AES-{}-CBC-CTS", 8 * key.len())).unwrap();
        let cts_mode = CString::new("cts_mode").unwrap();
        let mut cs3 = *b"CS3\0";
        let encrypt = (direction == Direction::Encrypt) as c_int;
        unsafe {
            let algorithm = EVP_CIPHER_fetch(ptr::null_mut(), name.as_ptr(), ptr::null());
            assert!(!algorithm.is_null(), "libcrypto has no {:?}", name);
            let context = EVP_CIPHER_CTX_new();
            assert!(!context.is_null());
            let parameters = [
                OSSL_PARAM_construct_utf8_string(cts_mode.as_ptr(), cs3.as_mut_ptr().cast(), 0),
                OSSL_PARAM_construct_end(),
            ];
            let (key, iv) = (key.as_ptr(), iv.as_ptr());
            let begun =
                EVP_CipherInit_ex2(context, algorithm, key, iv, encrypt, parameters.as_ptr());
            // the context keeps the algorithm
            EVP_CIPHER_free(algorithm);
            assert!(begun == 1);
            Cipher { context }
        }
    }

    // Puts the input through. Both slices are equally long; in ECB and CBC they are whole blocks.
    pub fn update(&mut self, input: &[u8], out: &mut [u8]) {
        assert!(input.len() == out.len());
        let mut written: c_int = 0;
        let done = unsafe {
            EVP_CipherUpdate(
                self.context,
                out.as_mut_ptr(),
                &mut written,
                input.as_ptr(),
                input.len() as c_int,
            )
        };
        assert!(
            done == 1 && written as usize == input.len(),
            "libcrypto wrote {written} bytes"
        );
    }
}

impl Drop for Cipher {
    fn drop(&mut self) {
        unsafe { EVP_CIPHER_CTX_free(self.context) }
    }
}

// One block under a key.
pub fn block(key: &[u8], direction: Direction, block: &[u8; 16]) -> [u8; 16] {
    let mut out = [0; 16];
    Cipher::new("ecb", key, &[], direction).update(block, &mut out);
    out
}

// The rounds and the round keys of a key, with 0 after the expanded ones.
pub fn expand(key: &[u8]) -> (usize, [u8; 240]) {
    let mut schedule = Schedule {
        keys: [0; 240],
        rounds: 0,
    };
    let done = unsafe { AES_set_encrypt_key(key.as_ptr(), 8 * key.len() as c_int, &mut schedule) };
    assert!(done == 0);
    (schedule.rounds as usize, schedule.keys)
}

// Enc under this many rounds and these round keys.
pub fn enc_under(rounds: usize, keys: &[u8; 240], block: &[u8; 16]) -> [u8; 16] {
    let schedule = Schedule {
        keys: *keys,
        rounds: rounds as c_int,
    };
    let mut out = [0; 16];
    unsafe { AES_encrypt(block.as_ptr(), out.as_mut_ptr(), &schedule) }
    out
}

// Enc and Dec under a key.
#[derive(Clone)]
pub struct Key {
    pub rounds: usize,
    pub keys: [u8; 240],
    encrypting: Schedule,
    decrypting: Schedule,
}

impl Key {
    pub fn new(key: &[u8]) -> Key {
        let (rounds, keys) = expand(key);
        let empty = Schedule {
            keys: [0; 240],
            rounds: 0,
        };
        let (mut encrypting, mut decrypting) = (empty.clone(), empty);
        let bits = 8 * key.len() as c_int;
        let done = unsafe {
            AES_set_encrypt_key(key.as_ptr(), bits, &mut encrypting) == 0
                && AES_set_decrypt_key(key.as_ptr(), bits, &mut decrypting) == 0
        };
        assert!(done);
        Key {
            rounds,
            keys,
            encrypting,
            decrypting,
        }
    }

    pub fn enc(&self, block: &[u8; 16]) -> [u8; 16] {
        let mut out = [0; 16];
        unsafe { AES_encrypt(block.as_ptr(), out.as_mut_ptr(), &self.encrypting) }
        out
    }

    pub fn dec(&self, block: &[u8; 16]) -> [u8; 16] {
        let mut out = [0; 16];
        unsafe { AES_decrypt(block.as_ptr(), out.as_mut_ptr(), &self.decrypting) }
        out
    }
}
